//! Compiles the supplied source, unchanged, as a crate of its own.
//!
//! The supplied `lib.rs` says `crate::..` of itself, so it must be a crate root; and cargo
//! wants a package's crate root to exist before the build script runs. So this script stages
//! the supplied files and the stubs side by side in OUT_DIR and calls the compiler there.

use std::{
    env, fs, io,
    path::{Path, PathBuf},
    process::Command,
};

const SOURCE_VARIABLE: &str = "RA_AP_PARSER_SRC";
/// From the root of the project, the folder that holds `oracle/`.
const DEFAULT_SOURCE: &str = "../shared/docs/src";
const ROOT_FROM_MANIFEST: &str = "../..";

/// The crates that the supplied source names as its dependencies.
const STUB_CRATES: [&str; 4] = ["drop_bomb", "edition", "ra_ap_rustc_lexer", "tracing"];

fn main() -> io::Result<()> {
    let manifest = PathBuf::from(variable("CARGO_MANIFEST_DIR"));
    let out = PathBuf::from(variable("OUT_DIR"));
    let stubs = manifest.join("stubs");
    let source = source_folder(&manifest);
    let staged = out.join("staged");

    watch(&source, &stubs);
    stage(&source, &stubs, &staged)?;
    for name in STUB_CRATES {
        compile(name, &stubs.join("crates").join(format!("{name}.rs")), &out, &[]);
    }
    compile("supplied_parser", &staged.join("lib.rs"), &out, &STUB_CRATES);
    println!("cargo::rustc-link-search={}", out.display());
    Ok(())
}

fn variable(name: &str) -> String {
    env::var(name).unwrap_or_else(|_| panic!("cargo sets {name}"))
}

/// The folder of the supplied modules: the one that holds `lib.rs`.
fn source_folder(manifest: &Path) -> PathBuf {
    let root = manifest.join(ROOT_FROM_MANIFEST);
    let given = env::var(SOURCE_VARIABLE).unwrap_or_else(|_| DEFAULT_SOURCE.to_owned());
    // An absolute path replaces the root, a relative one is taken from it.
    let folder = root.join(given).join("src");
    assert!(
        folder.join("lib.rs").is_file(),
        "no src/lib.rs under {}: set {SOURCE_VARIABLE} to the folder of ra_ap_parser 0.0.360",
        folder.display(),
    );
    folder
}

fn watch(source: &Path, stubs: &Path) {
    println!("cargo::rerun-if-env-changed={SOURCE_VARIABLE}");
    println!("cargo::rerun-if-changed=build.rs");
    println!("cargo::rerun-if-changed={}", source.display());
    println!("cargo::rerun-if-changed={}", stubs.display());
}

/// Supplied files first, then the stubs: those of the grammar only where the folder lacks
/// the module, those of the text layer always, since the real ones need a lexer crate.
fn stage(source: &Path, stubs: &Path, staged: &Path) -> io::Result<()> {
    if staged.exists() {
        fs::remove_dir_all(staged)?;
    }
    copy_folder(source, staged)?;
    for entry in fs::read_dir(stubs.join("grammar"))? {
        let stub = entry?.path();
        let place = staged.join("grammar").join(stub.file_name().expect("a file"));
        if !place.exists() {
            fs::copy(stub, place)?;
        }
    }
    copy_folder(&stubs.join("text"), staged)
}

fn copy_folder(from: &Path, to: &Path) -> io::Result<()> {
    fs::create_dir_all(to)?;
    for entry in fs::read_dir(from)? {
        let entry = entry?;
        let place = to.join(entry.file_name());
        if entry.file_type()?.is_dir() {
            copy_folder(&entry.path(), &place)?;
        } else {
            // Bytes, not fs::copy: the supplied files may be read-only.
            fs::write(place, fs::read(entry.path())?)?;
        }
    }
    Ok(())
}

/// One library crate from one root file. Optimised and without debug assertions in every
/// profile, so that the crate's step limit is the one of its users' release builds.
fn compile(name: &str, root: &Path, out: &Path, dependencies: &[&str]) {
    let mut compiler = Command::new(variable("RUSTC"));
    compiler
        .args(["--crate-type", "rlib", "--edition", "2024", "--crate-name", name])
        .args(["-C", "opt-level=3", "-C", "debug-assertions=off", "-C", "panic=unwind"])
        .args(["-C", "metadata=oracle", "--cap-lints", "allow"])
        .args(["--target", &variable("TARGET")])
        .args(variable("CARGO_ENCODED_RUSTFLAGS").split('\x1f').filter(|flag| !flag.is_empty()))
        .arg("--out-dir")
        .arg(out)
        .arg("-L")
        .arg(out)
        .arg(root);
    for dependency in dependencies {
        let library = out.join(format!("lib{dependency}.rlib"));
        compiler.arg("--extern").arg(format!("{dependency}={}", library.display()));
    }
    let status = compiler.status().expect("the compiler starts");
    assert!(status.success(), "{name} does not compile: {compiler:?}");
}
