//! Names hold any bytes. What is printed of them is escaped, and can be read again.

/// Bytes as a person can read them: no control characters, quotes or backslashes; bytes that are no UTF-8 as `\xNN`.
pub fn escaped(bytes: &[u8]) -> String {
    let mut text = String::new();
    for chunk in bytes.utf8_chunks() {
        text.extend(chunk.valid().chars().flat_map(char::escape_debug));
        text += &hexadecimal(chunk.invalid());
    }
    text
}

pub fn quoted(bytes: &[u8]) -> String {
    format!("\"{}\"", escaped(bytes))
}

/// A name in a path: all but letters, digits, `_` and `#` as `\xNN`, so that no name ends a path or runs over it.
pub fn in_path(bytes: &[u8]) -> String {
    let mut text = String::new();
    for chunk in bytes.utf8_chunks() {
        for letter in chunk.valid().chars() {
            match letter {
                '_' | '#' => text.push(letter),
                _ if letter.is_alphanumeric() => text.push(letter),
                _ => text += &hexadecimal(letter.to_string().as_bytes()),
            }
        }
        text += &hexadecimal(chunk.invalid());
    }
    text
}

fn hexadecimal(bytes: &[u8]) -> String {
    bytes.iter().map(|byte| format!("\\x{byte:02x}")).collect()
}

/// The bytes of an escaped text.
pub fn unescaped(text: &str) -> Result<Vec<u8>, String> {
    let mut bytes = Vec::new();
    let mut rest = text;
    while let Some(at) = rest.find('\\') {
        bytes.extend_from_slice(&rest.as_bytes()[..at]);
        let (taken, one) = escape(&rest[at + 1..]).ok_or_else(|| format!("`{}` is no escape", &rest[at..]))?;
        bytes.extend(one);
        rest = &rest[at + 1 + taken..];
    }
    bytes.extend_from_slice(rest.as_bytes());
    Ok(bytes)
}

/// What stands after a backslash: how many bytes of the text it takes, and what it means.
fn escape(text: &str) -> Option<(usize, Vec<u8>)> {
    let simple = |byte: u8| Some((1, vec![byte]));
    match text.as_bytes().first()? {
        b'n' => simple(b'\n'),
        b'r' => simple(b'\r'),
        b't' => simple(b'\t'),
        b'0' => simple(0),
        b'x' => Some((3, vec![u8::from_str_radix(text.get(1..3)?, 16).ok()?])),
        b'u' => {
            let end = text.find('}')?;
            let letter = char::from_u32(u32::from_str_radix(text.get(1..end)?.strip_prefix('{')?, 16).ok()?)?;
            Some((end + 1, letter.to_string().into_bytes()))
        }
        byte @ (b'\\' | b'"' | b'\'') => simple(*byte),
        _ => None,
    }
}

#[cfg(test)]
mod tests {
    use super::*;

    #[test]
    fn every_byte_comes_back() {
        for first in 0..=255u8 {
            for second in [b'a', b'\\', b':', b'{', b' ', 0, 0xc3, 0xff, first] {
                let bytes = [first, second];
                assert_eq!(unescaped(&escaped(&bytes)).unwrap(), bytes);
                assert_eq!(unescaped(&in_path(&bytes)).unwrap(), bytes);
                assert!(!in_path(&bytes).contains([':', ' ', '\n']));
            }
        }
    }

    #[test]
    fn letters_of_other_languages_stay() {
        assert_eq!(escaped("naïve".as_bytes()), "naïve");
        assert_eq!(escaped("a\u{202e}b\n".as_bytes()), "a\\u{202e}b\\n");
        assert_eq!(in_path("a\u{202e}".as_bytes()), "a\\xe2\\x80\\xae");
        assert!(unescaped("\\q").is_err() && unescaped("\\x4").is_err() && unescaped("\\u{110000}").is_err());
    }
}
