//! Copies the two original Rust files, byte for byte, into OUT_DIR, each followed by accessors for what is private in it,
//! and links the static libraries that `rt lib` made of the crates `comparison` and `han_xin`.
//! HAN_XIN_RUST names the folder of the originals, HAN_XIN_LIB one that has both static libraries, if not each crate's own.
use std::{env, fs, path::Path};

const LIBRARIES: [&str; 2] = ["comparison", "han_xin"];

const ACCESS: [(&str, &str); 2] = [
    (
        "han_xin",
        "
/// Not part of the original.
pub mod access {
    pub fn parse(data: &[u8]) -> Option<(String, Vec<u8>)> {
        super::parse(data)
    }
    pub fn masked(mask: usize, row: usize, column: usize) -> bool {
        super::masked(mask, row, column)
    }
    pub fn total(version: usize) -> u16 {
        super::TOTAL_CODEWORDS[version - 1]
    }
    pub fn row(version: usize, level: usize) -> [u8; 9] {
        super::BLOCKS[version - 1][level]
    }
}
",
    ),
    (
        "reed_solomon",
        "
/// Not part of the original.
pub mod access {
    pub fn mul(f: &super::Field<u8>, a: u8, b: u8) -> u8 {
        f.mul(a, b)
    }
    pub fn div(f: &super::Field<u8>, a: u8, b: u8) -> u8 {
        f.div(a, b)
    }
    pub fn power(f: &super::Field<u8>, n: usize) -> u8 {
        f.power(n)
    }
    pub fn eval(f: &super::Field<u8>, p: &[u8], x: u8) -> u8 {
        f.eval(p, x)
    }
}
",
    ),
];

fn main() {
    let here = env::var("CARGO_MANIFEST_DIR").unwrap();
    let rust = env::var("HAN_XIN_RUST")
        .unwrap_or(format!("{here}/../../shared/docs/src/multiformat/src"));
    let out = env::var("OUT_DIR").unwrap();
    println!("cargo:rerun-if-env-changed=HAN_XIN_RUST");
    println!("cargo:rerun-if-env-changed=HAN_XIN_LIB");
    let mut modules = String::new();
    for (name, more) in ACCESS {
        let from = Path::new(&rust).join(format!("{name}.rs"));
        println!("cargo:rerun-if-changed={}", from.display());
        let text = fs::read_to_string(&from).unwrap_or_else(|e| panic!("{}: {e}", from.display()));
        fs::write(Path::new(&out).join(format!("{name}.rs")), text + more).unwrap();
        modules += &format!("#[path = \"{out}/{name}.rs\"]\npub mod {name};\n");
    }
    fs::write(Path::new(&out).join("original.rs"), modules).unwrap();
    for name in LIBRARIES {
        let lib = env::var("HAN_XIN_LIB").unwrap_or(format!("{here}/../crates/{name}/out"));
        println!("cargo:rustc-link-search=native={lib}");
        println!("cargo:rerun-if-changed={lib}/lib{name}.a");
        println!("cargo:rustc-link-lib=static={name}");
    }
}
