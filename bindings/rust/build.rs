//! Links the static library of the proved code under a name of its own. It is made by `rt lib` in `crates/exports` where it is missing
//! or older than the sources of the crates, and its version is compared with the one that this crate is written for.
use std::path::{Path, PathBuf};
use std::process::{Command, Output};
use std::time::SystemTime;
use std::{env, fs};

#[allow(dead_code)]
#[path = "src/version.rs"]
mod version;

/// The name that `rt lib` gives.
const MADE: &str = "libexports.a";

const OWN: &str = "libkelumavor.a";

fn main() {
    println!("cargo::rerun-if-env-changed=KELUMAVOR_STATICLIB");
    println!("cargo::rerun-if-changed=build.rs");
    println!("cargo::rerun-if-changed=src/version.rs");
    let out = PathBuf::from(env::var_os("OUT_DIR").expect("cargo names a folder"));
    let library = match env::var_os("KELUMAVOR_STATICLIB") {
        Some(folder) => lent(Path::new(&folder)),
        None => built(&Path::new(env!("CARGO_MANIFEST_DIR")).join("../..")),
    };
    println!("cargo::rerun-if-changed={}", library.display());
    if let Err(error) = fs::copy(&library, out.join(OWN)) {
        fail(&format!("{} cannot be copied: {error}", library.display()));
    }
    compare(&library, &out);
    println!("cargo::rustc-link-search=native={}", out.display());
    println!("cargo::rustc-link-lib=static=kelumavor");
}

/// The library in a folder that the environment names.
fn lent(folder: &Path) -> PathBuf {
    let found = [OWN, MADE].map(|name| folder.join(name)).into_iter().find(|library| library.exists());
    found.unwrap_or_else(|| fail(&format!("{} has no {OWN}", folder.display())))
}

/// The library below the repository's root, made where it is missing or older than the crates.
fn built(root: &Path) -> PathBuf {
    let maker = root.join("crates/exports");
    let library = maker.join("out").join(MADE);
    let sources = sources(root);
    let made = changed(&library);
    if made.is_some() && !sources.iter().any(|folder| newer(made, folder)) {
        return library;
    }
    match Command::new("rt").arg("lib").current_dir(&maker).output() {
        Ok(output) if output.status.success() => renew(&library),
        Ok(output) => fail(&format!("`rt lib` failed in {}:\n{}", maker.display(), said(&output))),
        Err(error) if made.is_some() => {
            let old = format!("{} is older than the crates, and `rt` cannot be run to make it anew", library.display());
            println!("cargo::warning={old}: {error}");
        }
        Err(error) => fail(&format!(
            "`rt`, the toolchain that proves and compiles the library, cannot be run in {}: {error}",
            maker.display()
        )),
    }
    library
}

/// The folders of the crates' sources, which the build is to be run again for. What `rt` keeps beside them is none.
fn sources(root: &Path) -> Vec<PathBuf> {
    let list = root.join("crates.txt");
    println!("cargo::rerun-if-changed={}", list.display());
    let Ok(crates) = root.join("crates").read_dir() else { return Vec::new() };
    let folders: Vec<PathBuf> =
        crates.flatten().map(|entry| entry.path().join("src")).filter(|it| it.is_dir()).collect();
    for folder in &folders {
        println!("cargo::rerun-if-changed={}", folder.display());
    }
    folders
}

fn said(output: &Output) -> String {
    format!("{}{}", String::from_utf8_lossy(&output.stdout), String::from_utf8_lossy(&output.stderr))
}

/// The library is that of the sources as they are now, also where `rt` left it as it was.
fn renew(library: &Path) {
    let opened = fs::File::options().append(true).open(library);
    if let Err(error) = opened.and_then(|file| file.set_modified(SystemTime::now())) {
        println!("cargo::warning=the time of {} cannot be set: {error}", library.display());
    }
}

fn changed(path: &Path) -> Option<SystemTime> {
    path.metadata().and_then(|data| data.modified()).ok()
}

/// A source below a folder was changed after the library was made.
fn newer(made: Option<SystemTime>, folder: &Path) -> bool {
    let Ok(entries) = folder.read_dir() else { return false };
    entries.flatten().map(|entry| entry.path()).any(|path| {
        let is_source = path.extension().is_some_and(|extension| extension == "rt");
        path.is_dir() && newer(made, &path) || is_source && changed(&path) > made
    })
}

/// Links a program that asks the library for its version, and runs it.
fn compare(library: &Path, out: &Path) {
    let (source, program) = (out.join("version.rs"), out.join("version"));
    let text = "unsafe extern \"C\" { fn kelumavor_version() -> usize; }\n\
                fn main() { println!(\"{}\", unsafe { kelumavor_version() }) }\n";
    fs::write(&source, text).unwrap_or_else(|error| fail(&format!("{} cannot be written: {error}", source.display())));
    let rustc = env::var_os("RUSTC").unwrap_or_else(|| "rustc".into());
    let mut compile = Command::new(rustc);
    compile.args(["--edition=2024", "-lstatic=kelumavor", "-L"]).arg(format!("native={}", out.display()));
    match compile.arg("-o").arg(&program).arg(&source).output() {
        Ok(output) if output.status.success() => (),
        Ok(output) => stale(library, &format!("it does not answer `kelumavor_version`:\n{}", said(&output))),
        Err(error) => fail(&format!("rustc cannot be run: {error}")),
    }
    let answer = Command::new(&program).output().map(|output| said(&output)).unwrap_or_default();
    if answer.trim() != version::VERSION.to_string() {
        let number: usize = answer.trim().parse().unwrap_or(0);
        let told = format!("format {} with reports of {} words", number / 65_536, number % 65_536);
        let wanted = format!("format {} with reports of {}", version::FORMAT, version::REPORT);
        stale(library, &format!("it has {told}, and this crate is written for {wanted}"));
    }
}

fn stale(library: &Path, reason: &str) -> ! {
    fail(&format!("{} is of another version: {reason}", library.display()))
}

fn fail(reason: &str) -> ! {
    eprintln!(
        "the static library of Kelumavor is not there: {reason}\n\
         run `rt lib` in the repository's crates/exports, or set KELUMAVOR_STATICLIB to a folder that has {OWN}"
    );
    std::process::exit(1)
}
