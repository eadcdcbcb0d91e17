// Links target/library/libtweedpillar.a, which ./build-library makes; TWEEDPILLAR_LIBRARY_DIR names another folder.
use std::{env, path::PathBuf};

fn main() {
    println!("cargo:rerun-if-env-changed=TWEEDPILLAR_LIBRARY_DIR");
    let here = PathBuf::from(env::var("CARGO_MANIFEST_DIR").unwrap());
    let folder = env::var("TWEEDPILLAR_LIBRARY_DIR").map(PathBuf::from).unwrap_or(here.join("../../target/library"));
    let archive = folder.join("libtweedpillar.a");
    println!("cargo:rerun-if-changed={}", archive.display());
    if !archive.is_file() {
        println!("cargo:warning={} is not there; ./build-library makes it", archive.display());
    }
    println!("cargo:rustc-link-search=native={}", folder.display());
    println!("cargo:rustc-link-lib=static=tweedpillar");
}
