//! Links libduthlan.a, and with the feature `large` libduthlan_large.a, from the folder that
//! DUTHLAN_LIB_DIR names, by an absolute path, or from target/staticlib of this repository, where
//! `bindings/archive duthlan` and `bindings/archive duthlan_large` write them.

use std::env;
use std::path::{Path, PathBuf};

fn main() {
    println!("cargo:rerun-if-env-changed=DUTHLAN_LIB_DIR");
    let folder = match env::var_os("DUTHLAN_LIB_DIR") {
        Some(folder) => PathBuf::from(folder),
        None => PathBuf::from(env::var_os("CARGO_MANIFEST_DIR").expect("cargo sets it"))
            .join("../../target/staticlib"),
    };
    println!("cargo:rustc-link-search=native={}", folder.display());
    link(&folder, "duthlan");
    if env::var_os("CARGO_FEATURE_LARGE").is_some() {
        link(&folder, "duthlan_large");
    }
}

fn link(folder: &Path, name: &str) {
    let archive = folder.join(format!("lib{name}.a"));
    if !archive.exists() {
        println!(
            "cargo:warning=there is no {}: run `bindings/archive {name}`, or name its folder in DUTHLAN_LIB_DIR",
            archive.display()
        );
    }
    println!("cargo:rerun-if-changed={}", archive.display());
    println!("cargo:rustc-link-lib=static={name}");
}
