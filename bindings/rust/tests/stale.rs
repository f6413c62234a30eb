//! A library of another version is refused by the build.
use std::path::{Path, PathBuf};
use std::process::Command;

use kelumavor::VERSION;

/// A static library with such a function.
fn library(name: &str, function: &str) -> PathBuf {
    let folder = Path::new(env!("CARGO_TARGET_TMPDIR")).join(name);
    std::fs::create_dir_all(&folder).unwrap();
    let source = folder.join("library.rs");
    std::fs::write(&source, function).unwrap();
    let rustc = std::env::var_os("RUSTC").unwrap_or_else(|| "rustc".into());
    let made = Command::new(rustc)
        .args(["--edition=2024", "--crate-type=staticlib", "-Cpanic=abort", "-o"])
        .args([folder.join("libkelumavor.a"), source])
        .output()
        .unwrap();
    assert!(made.status.success(), "{}", String::from_utf8_lossy(&made.stderr));
    folder
}

/// What the build says with the library in a folder, and whether it went through.
fn build(folder: &Path) -> (bool, String) {
    let output = Command::new(env!("CARGO"))
        .args(["build", "--offline", "--manifest-path", concat!(env!("CARGO_MANIFEST_DIR"), "/Cargo.toml")])
        .arg("--target-dir")
        .arg(folder.join("build"))
        .env("KELUMAVOR_STATICLIB", folder)
        .output()
        .unwrap();
    (output.status.success(), String::from_utf8_lossy(&output.stderr).into_owned())
}

fn versioned(version: usize) -> String {
    format!("#[unsafe(no_mangle)]\npub extern \"C\" fn kelumavor_version() -> usize {{ {version} }}\n")
}

#[test]
fn another_version() {
    let (built, said) = build(&library("another_version", &versioned(VERSION + 1)));
    assert!(!built);
    assert!(said.contains("it has format 2 with reports of 43 words"), "{said}");
    let (built, said) = build(&library("another_format", &versioned(VERSION + 65_536)));
    assert!(!built);
    assert!(said.contains("it has format 3 with reports of 42 words"), "{said}");
}

#[test]
fn a_library_without_a_version() {
    let (built, said) =
        build(&library("no_version", "#[unsafe(no_mangle)]\npub extern \"C\" fn kelumavor_check() {}\n"));
    assert!(!built);
    assert!(said.contains("it does not answer `kelumavor_version`"), "{said}");
}

/// A copy of this package in a repository of its own, with one source and an `rt` that counts its runs and lends a library. It stands
/// among the temporary files: `rt ci` refuses a source that no check reads below its checkout.
struct Remade(PathBuf);

impl Drop for Remade {
    fn drop(&mut self) {
        std::fs::remove_dir_all(&self.0).ok();
    }
}

impl Remade {
    fn new(library: &Path) -> Self {
        let root = std::env::temp_dir().join(format!("kelumavor-remade-{}", std::process::id()));
        std::fs::remove_dir_all(&root).ok();
        let made = Remade(root);
        let root = &made.0;
        let package = root.join("bindings/rust");
        for folder in [package.join("src"), root.join("crates/one/src"), root.join("crates/exports"), root.join("bin")]
        {
            std::fs::create_dir_all(folder).unwrap();
        }
        let own = Path::new(env!("CARGO_MANIFEST_DIR"));
        for file in ["Cargo.toml", "Cargo.lock", "README.md", "build.rs"] {
            std::fs::copy(own.join(file), package.join(file)).unwrap();
        }
        for source in std::fs::read_dir(own.join("src")).unwrap() {
            let source = source.unwrap().path();
            std::fs::copy(&source, package.join("src").join(source.file_name().unwrap())).unwrap();
        }
        std::fs::write(root.join("crates.txt"), "one:\nexports staticlib: one\n").unwrap();
        std::fs::write(root.join("crates/one/src/lib.rt"), "").unwrap();
        let script = format!(
            "#!/bin/sh\necho \"$(basename \"$PWD\") $*\" >> ../../runs\nmkdir -p out\ncp '{}' out/libexports.a\n",
            library.join("libkelumavor.a").display()
        );
        std::fs::write(root.join("bin/rt"), script).unwrap();
        let status = Command::new("chmod").arg("+x").arg(root.join("bin/rt")).status().unwrap();
        assert!(status.success());
        made
    }

    /// Changes a file of a crate, with a later time than that of the library.
    fn change(&self, file: &str) {
        std::thread::sleep(std::time::Duration::from_millis(1100));
        let file = self.0.join("crates/one").join(file);
        std::fs::create_dir_all(file.parent().unwrap()).unwrap();
        std::fs::write(file, "// changed\n").unwrap();
    }

    /// Builds the copy; answers how often its `rt` has run.
    fn runs(&self) -> usize {
        let path = format!("{}:{}", self.0.join("bin").display(), std::env::var("PATH").unwrap_or_default());
        let output = Command::new(env!("CARGO"))
            .args(["build", "--offline", "--manifest-path"])
            .arg(self.0.join("bindings/rust/Cargo.toml"))
            .arg("--target-dir")
            .arg(self.0.join("build"))
            .env("PATH", path)
            .env_remove("KELUMAVOR_STATICLIB")
            .output()
            .unwrap();
        assert!(output.status.success(), "{}", String::from_utf8_lossy(&output.stderr));
        let said = std::fs::read_to_string(self.0.join("runs")).unwrap();
        assert!(said.lines().all(|line| line == "exports lib"), "{said}");
        said.lines().count()
    }
}

/// The library is made where it is missing, and again after a source has changed; what the toolchain keeps beside the sources is none.
#[test]
fn sources_that_change() {
    let made = Remade::new(&library("lent_version", &versioned(VERSION)));
    assert_eq!(made.runs(), 1);
    assert_eq!(made.runs(), 1);
    made.change("src/lib.rt");
    assert_eq!(made.runs(), 2);
    made.change("out/rlib/one.rlib/src/lib.rt");
    assert_eq!(made.runs(), 2);
}

#[test]
fn the_same_version() {
    let (built, said) = build(&library("same_version", &versioned(VERSION)));
    assert!(built, "{said}");
}
