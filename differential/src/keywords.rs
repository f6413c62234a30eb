//! The keywords of the Rust Reference, apart from the definitions.

/// Strict and reserved in every edition, but for those that cannot be raw.
const ALWAYS: &str = "abstract as become box break const continue do else enum extern false final fn for if impl in let loop macro \
    match mod move mut override priv pub ref return static struct trait true type typeof unsafe unsized use virtual where while yield";

/// Whether an edition writes a name with `r#`.
pub fn is_raw(text: &[u8], edition: usize) -> bool {
    match text {
        b"async" | b"await" | b"dyn" | b"try" => edition != 2015,
        b"gen" => edition == 2024,
        _ => ALWAYS.split_whitespace().any(|keyword| keyword.as_bytes() == text),
    }
}

/// Names that a wrong program may take for keywords, or not: strict, reserved, weak, of some editions alone, what cannot be raw, and near
/// ones.
pub fn pool() -> Vec<&'static str> {
    let names = "type fn in do as match continue override abstract virtual yield static async await dyn try gen union macro_rules raw \
        safe _ crate self super Self typ types r#type auto";
    names.split_whitespace().collect()
}
