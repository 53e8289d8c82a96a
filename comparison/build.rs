//! Declares the calls of include/gauge.h for `src/shipped.rs`, and links the shipped library, target/staticlib/libhandset.a of
//! the repository, which `run` builds first.

mod prototypes;

use std::path::{Path, PathBuf};
use std::{env, fs};

const HEADER: &str = "../include/gauge.h";

fn main() {
    declare();
    link();
}

fn declare() {
    println!("cargo:rerun-if-changed={HEADER}");
    let header = fs::read_to_string(HEADER).expect(HEADER);
    let prototypes = prototypes::read(&header).expect(HEADER);
    let declarations: String =
        prototypes.iter().map(|call| format!("    fn {}({}) -> u32;\n", call.name, call.parameters)).collect();
    let output = Path::new(&variable("OUT_DIR")).join("prototypes.rs");
    fs::write(&output, format!("extern \"C\" {{\n{declarations}}}\n")).expect("cargo's output folder can be written");
}

fn link() {
    let folder = match env::var("HANDSET_LIBRARY") {
        Ok(folder) => PathBuf::from(folder),
        Err(_) => Path::new(&variable("CARGO_MANIFEST_DIR")).join("../target/staticlib"),
    };
    let library = folder.join("libhandset.a");
    assert!(library.exists(), "{} is absent: run `tools/build archive` first", library.display());
    println!("cargo:rustc-link-search=native={}", folder.display());
    println!("cargo:rustc-link-lib=static=handset");
    println!("cargo:rerun-if-changed={}", library.display());
    println!("cargo:rerun-if-env-changed=HANDSET_LIBRARY");
}

fn variable(name: &str) -> String {
    env::var(name).expect("cargo sets it for a build script")
}
