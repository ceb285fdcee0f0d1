// Links the proved library, libviskorrel.a: VISKORREL_LIBRARY names it or the folder that has it; else it is the repository's own.
use std::env;
use std::path::{Path, PathBuf};
use std::process::exit;

const VARIABLE: &str = "VISKORREL_LIBRARY";
const ARCHIVE: &str = "libviskorrel.a";

fn main() {
    println!("cargo:rerun-if-env-changed={VARIABLE}");
    let package = PathBuf::from(env::var_os("CARGO_MANIFEST_DIR").expect("cargo sets it"));
    let named = env::var_os(VARIABLE).filter(|named| !named.is_empty());
    // a path that is not absolute starts from this crate's folder: cargo runs this program there
    let named = named.map_or(package.join("../../target/staticlib"), |named| package.join(named));
    let archive = if named.is_dir() { named.join(ARCHIVE) } else { named };
    println!("cargo:rerun-if-changed={}", archive.display());
    if !archive.is_file() || archive.file_name() != Some(ARCHIVE.as_ref()) {
        eprintln!("{} is not a file of the name {ARCHIVE}.", archive.display());
        eprintln!("Make it with `make library` in the repository's top folder, or let {VARIABLE} name it or the folder that has it.");
        exit(1);
    }
    println!("cargo:rustc-link-search=native={}", archive.parent().unwrap_or(Path::new(".")).display());
    println!("cargo:rustc-link-lib=static=viskorrel");
}
