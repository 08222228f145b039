//! Links `libtrack.a`, which `bindings/build` makes: from the folder that TRACK_LIB names, else from
//! `lib/` beside this file.
use std::env;
use std::path::PathBuf;

fn main() {
    println!("cargo:rerun-if-env-changed=TRACK_LIB");
    let named = env::var_os("TRACK_LIB").map(PathBuf::from);
    let beside =
        PathBuf::from(env::var_os("CARGO_MANIFEST_DIR").expect("cargo sets it")).join("lib");
    let folder = named.unwrap_or(beside);
    let archive = folder.join("libtrack.a");
    if !archive.exists() {
        println!(
            "cargo:warning=there is no {}: TRACK_LIB names its folder",
            archive.display()
        );
    }
    println!("cargo:rerun-if-changed={}", archive.display());
    println!("cargo:rustc-link-search=native={}", folder.display());
    println!("cargo:rustc-link-lib=static=track");
}
