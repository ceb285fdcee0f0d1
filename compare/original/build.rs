//! Copies the original's files, unchanged, and declares a child module after the end of those whose private items the
//! comparison reads. ORIGINAL names the directory that holds `src`.

use std::path::Path;
use std::{env, fs};

/// The original's files under `src`, without `.rs`, and whether a child module stands in `inside`.
const FILES: [(&str, bool); 5] = [
    ("gpb", false),
    ("coords", false),
    ("geom", false),
    ("functions/surface", true),
    ("functions/threed_metric", true),
];

fn main() {
    println!("cargo:rerun-if-env-changed=ORIGINAL");
    let from = env::var("ORIGINAL").expect("ORIGINAL names the directory that holds the original's src");
    let here = env::var("CARGO_MANIFEST_DIR").expect("set by cargo");
    let out = env::var("OUT_DIR").expect("set by cargo");
    let (mut top, mut functions) = (String::new(), String::new());
    for (file, child) in FILES {
        let source = Path::new(&from).join("src").join(format!("{file}.rs"));
        println!("cargo:rerun-if-changed={}", source.display());
        let mut text = fs::read_to_string(&source).unwrap_or_else(|e| panic!("{}: {e}", source.display()));
        let name = file.rsplit('/').next().expect("not empty");
        if child {
            text += &format!("\n#[path = {:?}]\npub mod inside;\n", format!("{here}/src/inside/{name}.rs"));
        }
        let copy = format!("{out}/{name}.rs");
        fs::write(&copy, text).expect("OUT_DIR can be written");
        let list = if file.starts_with("functions/") { &mut functions } else { &mut top };
        *list += &format!("#[path = {copy:?}]\npub mod {name};\n");
    }
    fs::write(format!("{out}/top.rs"), top).expect("OUT_DIR can be written");
    fs::write(format!("{out}/functions.rs"), functions).expect("OUT_DIR can be written");
}
