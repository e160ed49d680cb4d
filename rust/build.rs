//! Links `libbridge.a`, the archive of the crate `bridge_c`, from the folder that HUNPOSETO_LIB names, else from the repository's
//! target/staticlib, where rust/test puts it. The tests are told this folder, and whether what they build runs on the machine itself.
use std::env::var;

fn main() {
    println!("cargo::rerun-if-env-changed=HUNPOSETO_LIB");
    let beside = concat!(env!("CARGO_MANIFEST_DIR"), "/../target/staticlib");
    let folder = var("HUNPOSETO_LIB").unwrap_or_else(|_| beside.to_string());
    println!("cargo::rerun-if-changed={folder}/libbridge.a");
    println!("cargo::rustc-link-search=native={folder}");
    println!("cargo::rustc-link-lib=static=bridge");
    println!("cargo::rustc-env=HUNPOSETO_LIB_FOLDER={folder}");
    println!("cargo::rustc-check-cfg=cfg(at_home)");
    if var("HOST") == var("TARGET") {
        println!("cargo::rustc-cfg=at_home");
    }
}
