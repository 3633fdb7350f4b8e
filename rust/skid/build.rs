//! Where the proved library is: SKID_LIB_DIR names the folder that holds `libskid.a`. Without it, it is the repository's
//! `crates/skid/out`, where `rt lib --cpu x86-64` in crates/skid writes it. Where there is none, the build says so by a
//! warning: what is only checked needs no archive, and what is built then fails.
use std::env;
use std::path::PathBuf;

fn main() {
    let here =
        PathBuf::from(env::var_os("CARGO_MANIFEST_DIR").expect("cargo sets CARGO_MANIFEST_DIR"));
    let folder = match env::var_os("SKID_LIB_DIR") {
        Some(named) => PathBuf::from(named),
        None => here.join("../../crates/skid/out"),
    };
    let archive = folder.join("libskid.a");
    println!("cargo:rerun-if-env-changed=SKID_LIB_DIR");
    println!("cargo:rerun-if-changed={}", archive.display());
    if !archive.exists() {
        println!(
            "cargo:warning=there is no libskid.a in {}: `rt lib --cpu x86-64` makes it in crates/skid/out, and SKID_LIB_DIR names another folder",
            folder.display()
        );
    }
    println!("cargo:rustc-link-search=native={}", folder.display());
    println!("cargo:rustc-link-lib=static=skid");
}
