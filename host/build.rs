// Links the static libraries that are for comparisons alone, and brings in the Rust module that the proved code is
// compared with. The library itself is linked by the crate `lighting`.
//
// The module is taken as it stands: LIGHTING_RS names its file, and without it the path below the folder beside the
// repository is tried. Where there is none, the comparisons are left out.
use std::path::{Path, PathBuf};
use std::process::exit;
use std::{env, fs};

const LIBRARIES: [&str; 3] = ["comparison_abi", "block_abi", "structs_abi"];

const FOLDER: &str = "LIGHTING_LIB_DIR";

const DEFAULT: &str = "../../shared/docs/src/src--crates--zakuro-gpu--src--lighting.rs.txt";

fn main() {
    let here = PathBuf::from(env::var("CARGO_MANIFEST_DIR").unwrap());
    println!("cargo:rerun-if-changed=build.rs");
    println!("cargo:rustc-check-cfg=cfg(oracle)");
    link(&here);
    bring_in(&here);
}

fn link(here: &Path) {
    println!("cargo:rerun-if-env-changed={FOLDER}");
    // as the crate has it: a relative path counts from the package's folder, and an empty one is none
    let folder = env::var_os(FOLDER).filter(|folder| !folder.is_empty()).unwrap_or_else(|| "../target/staticlib".into());
    let folder = here.join(folder);
    let folder = folder.canonicalize().unwrap_or(folder);
    println!("cargo:rustc-link-search=native={}", folder.display());
    for name in LIBRARIES {
        let archive = folder.join(format!("lib{name}.a"));
        println!("cargo:rerun-if-changed={}", archive.display());
        if !archive.is_file() {
            eprintln!("The proved code for comparisons is not there: {} is missing.", archive.display());
            eprintln!("Make it with `host/archives {name}` in the repository's top folder,");
            eprintln!("or name the folder that has it in the environment variable {FOLDER}.");
            exit(1);
        }
        println!("cargo:rustc-link-lib=static={name}");
    }
}

fn bring_in(here: &Path) {
    println!("cargo:rerun-if-env-changed=LIGHTING_RS");
    println!("cargo:rerun-if-changed=src/access.rs");
    let source = env::var("LIGHTING_RS").map(PathBuf::from).unwrap_or_else(|_| here.join(DEFAULT));
    println!("cargo:rerun-if-changed={}", source.display());
    if let Ok(text) = fs::read_to_string(&source) {
        // inner doc comments may not stand in an included file, so the first lines become plain comments
        let plain = |line: &str| line.strip_prefix("//!").map_or(format!("{line}\n"), |rest| format!("//{rest}\n"));
        let text: String = text.lines().map(plain).collect();
        let access = fs::read_to_string(here.join("src/access.rs")).unwrap();
        let out = PathBuf::from(env::var("OUT_DIR").unwrap());
        fs::write(out.join("lighting.rs"), text + &access).unwrap();
        println!("cargo:rustc-cfg=oracle");
    }
}
