//! Links the library's archive, or says in one line what is missing and what to do.

use std::env::var;
use std::path::{Path, PathBuf};
use std::process::exit;

/// Says why the build can't go on, and ends it.
fn stop(why: &str) -> ! {
    eprintln!("hindraloha: {why}");
    exit(1)
}

/// The folder of the archive: that which `HINDRALOHA_LIB_DIR` names, or the one that `tools/archive` writes to.
fn folder() -> PathBuf {
    let beside = Path::new(&var("CARGO_MANIFEST_DIR").unwrap_or_default()).join("../target/staticlib");
    var("HINDRALOHA_LIB_DIR").map_or(beside, PathBuf::from)
}

/// Links the archive. With the feature stand-in there is nothing to link, and no release is built.
fn main() {
    println!("cargo:rerun-if-env-changed=HINDRALOHA_LIB_DIR");
    if var("CARGO_FEATURE_STAND_IN").is_ok() {
        println!("cargo:warning=the feature stand-in is for tests: a model answers in place of the proved library");
        return;
    }
    let machine = var("CARGO_CFG_TARGET_ARCH").unwrap_or_default();
    if machine != "x86_64" {
        stop(&format!(
            "the library is made for x86-64 and this build is for {machine}; to run the tests on a model in its place: \
             cargo test --offline --features stand-in"
        ));
    }
    let folder = folder();
    let archive = folder.join("libhindraloha.a");
    println!("cargo:rerun-if-changed={}", archive.display());
    if !archive.is_file() {
        stop(&format!("there is no {}; to make it, run in the repository: tools/archive", archive.display()));
    }
    println!("cargo:rustc-link-search=native={}", folder.display());
    println!("cargo:rustc-link-lib=static=hindraloha");
}
