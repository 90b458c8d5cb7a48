//! Links liblokuwaine.a, which bindings/build writes below the repository's target folder.
//! LOKUWAINE_LIB names another folder that has it.
use std::path::PathBuf;

fn main() {
    let beside = PathBuf::from(std::env::var("CARGO_MANIFEST_DIR").unwrap()).join("../../target/staticlib");
    let folder = std::env::var_os("LOKUWAINE_LIB").map(PathBuf::from).unwrap_or(beside);
    println!("cargo:rerun-if-env-changed=LOKUWAINE_LIB");
    println!("cargo:rerun-if-changed={}", folder.join("liblokuwaine.a").display());
    println!("cargo:rustc-link-search=native={}", folder.display());
    println!("cargo:rustc-link-lib=static=lokuwaine");
}
