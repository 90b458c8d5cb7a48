//! With the feature `proved`, links the static library whose path is in PROVED_LIB.
//! Without it, does nothing.

use std::path::PathBuf;

fn main() {
    println!("cargo:rerun-if-env-changed=PROVED_LIB");
    if std::env::var_os("CARGO_FEATURE_PROVED").is_none() {
        return;
    }
    let path = PathBuf::from(std::env::var("PROVED_LIB").expect("PROVED_LIB names no file, say /path/libname.a"));
    println!("cargo:rerun-if-changed={}", path.display());
    println!("cargo:rustc-link-arg={}", path.canonicalize().expect("PROVED_LIB is there").display());
}
