//! Has the compiler hold the definitions of `src/lib.rs` to the prototypes of include/gauge.h.

#[path = "../../comparison/prototypes.rs"]
mod prototypes;

use std::path::Path;
use std::{env, fs};

const HEADER: &str = "../../include/gauge.h";

fn main() {
    println!("cargo:rerun-if-changed={HEADER}");
    let header = fs::read_to_string(HEADER).expect(HEADER);
    let prototypes = prototypes::read(&header).expect(HEADER);
    let lines =
        prototypes.iter().map(|call| format!("const _: unsafe extern \"C\" fn({}) -> u32 = {};\n", call.parameters, call.name));
    let output = Path::new(&env::var("OUT_DIR").expect("cargo names its output folder")).join("prototypes.rs");
    fs::write(&output, lines.collect::<String>()).expect("cargo's output folder can be written");
}
