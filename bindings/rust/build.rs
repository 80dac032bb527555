//! Links the proved library: `scripts/staticlib` writes it to target/staticlib of the repository.
//! DUOTTAROK_LIB_DIR names another folder.
use std::{env, path::PathBuf};

fn main() {
    println!("cargo:rerun-if-env-changed=DUOTTAROK_LIB_DIR");
    let here = PathBuf::from(env::var_os("CARGO_MANIFEST_DIR").expect("cargo sets it"));
    let dir = env::var_os("DUOTTAROK_LIB_DIR").map_or_else(|| here.join("../../target/staticlib"), PathBuf::from);
    println!("cargo:rerun-if-changed={}", dir.join("libduottarok.a").display());
    println!("cargo:rustc-link-search=native={}", dir.display());
    println!("cargo:rustc-link-lib=static=duottarok");
}
