//! Writes the program that runs the text of rust-analyzer to OUT_DIR.
use std::path::Path;

#[allow(dead_code)]
#[path = "text.rs"]
mod text;

fn main() {
    println!("cargo:rerun-if-changed=build.rs");
    let root = Path::new(env!("CARGO_MANIFEST_DIR"));
    text::write(&text::out(), "right", &text::right(root));
    text::write(&text::out(), "collect", &text::collect(root));
}
