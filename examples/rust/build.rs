//! Names the folder of libchudopolk.a: CHUDOPOLK_LIB, or where `rt lib` writes it in this repository.

use std::path::PathBuf;

fn main() {
    let here = PathBuf::from(std::env::var("CARGO_MANIFEST_DIR").expect("cargo sets it"));
    let folder = std::env::var("CHUDOPOLK_LIB").map_or_else(|_| here.join("../../crates/chudopolk/out"), PathBuf::from);
    println!("cargo:rustc-link-search=native={}", folder.display());
    println!("cargo:rerun-if-env-changed=CHUDOPOLK_LIB");
    println!("cargo:rerun-if-changed={}", folder.join("libchudopolk.a").display());
}
