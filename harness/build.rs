//! Says where libduthlan.a, libduthlan_large.a and libduthlan_bytes.a are: in the folder that
//! DUTHLAN_LIB_DIR names, or in target/staticlib of this repository. The sources name them for the
//! linker.

use std::env;
use std::path::PathBuf;

fn main() {
    println!("cargo:rerun-if-env-changed=DUTHLAN_LIB_DIR");
    let folder = match env::var_os("DUTHLAN_LIB_DIR") {
        Some(folder) => PathBuf::from(folder),
        None => PathBuf::from(env::var_os("CARGO_MANIFEST_DIR").expect("cargo sets it"))
            .join("../target/staticlib"),
    };
    for archive in ["libduthlan.a", "libduthlan_large.a", "libduthlan_bytes.a"] {
        println!("cargo:rerun-if-changed={}", folder.join(archive).display());
    }
    println!("cargo:rustc-link-search=native={}", folder.display());
}
