// Links the proved code: the one archive `liblighting_abi.a`.
use std::env;
use std::path::Path;
use std::process::exit;

const FOLDER: &str = "LIGHTING_LIB_DIR";

fn main() {
    println!("cargo:rerun-if-changed=build.rs");
    println!("cargo:rerun-if-env-changed={FOLDER}");

    // a relative path counts from the crate's folder, as Cargo runs this program there and the linker elsewhere
    let here = env::var_os("CARGO_MANIFEST_DIR").unwrap_or_default();
    let folder = env::var_os(FOLDER).filter(|folder| !folder.is_empty()).unwrap_or_else(|| "../target/staticlib".into());
    let folder = Path::new(&here).join(folder);
    let folder = folder.canonicalize().unwrap_or(folder);

    let archive = folder.join("liblighting_abi.a");
    println!("cargo:rerun-if-changed={}", archive.display());
    if !archive.is_file() {
        eprintln!("The proved lighting code is not there: {} is missing.", archive.display());
        eprintln!("Make it with `host/archives lighting_abi` in the repository's top folder,");
        eprintln!("or name the folder that has it in the environment variable {FOLDER}.");
        exit(1);
    }
    println!("cargo:rustc-link-search=native={}", folder.display());
    println!("cargo:rustc-link-lib=static=lighting_abi");
}
