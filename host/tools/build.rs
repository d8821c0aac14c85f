// Brings in the Rust module that pictures are compared with, as it stands.
//
// LIGHTING_RS names its file, and without it the path below the folder beside the repository is tried. Where there is none,
// `picture` draws the proved code's colours alone.
use std::path::PathBuf;
use std::{env, fs};

const DEFAULT: &str = "../../../shared/docs/src/src--crates--zakuro-gpu--src--lighting.rs.txt";

fn main() {
    let here = PathBuf::from(env::var("CARGO_MANIFEST_DIR").unwrap());
    let out = PathBuf::from(env::var("OUT_DIR").unwrap());
    println!("cargo:rerun-if-env-changed=LIGHTING_RS");
    println!("cargo:rerun-if-changed=build.rs");
    println!("cargo:rustc-check-cfg=cfg(oracle)");

    let source = env::var("LIGHTING_RS").map(PathBuf::from).unwrap_or_else(|_| here.join(DEFAULT));
    println!("cargo:rerun-if-changed={}", source.display());
    if let Ok(text) = fs::read_to_string(&source) {
        // inner doc comments may not stand in an included file, so the first lines become plain comments
        let plain = |line: &str| line.strip_prefix("//!").map_or(format!("{line}\n"), |rest| format!("//{rest}\n"));
        let text: String = text.lines().map(plain).collect();
        fs::write(out.join("lighting.rs"), text).unwrap();
        println!("cargo:rustc-cfg=oracle");
    }
}
