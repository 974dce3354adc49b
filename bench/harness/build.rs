//! Links libtaffrail.a, which `hosts/build --archive` writes, and with the feature `before` also libbefore.a, which
//! `bench/run --before` makes of an earlier one.

use std::env;

fn main() {
    println!("cargo:rerun-if-env-changed=TAFFRAIL_ARCHIVE_DIR");
    if env::var_os("CARGO_FEATURE_ITSELF").is_some() {
        return;
    }
    let usual = || format!("{}/../../hosts/build-output", env!("CARGO_MANIFEST_DIR"));
    let folder = env::var("TAFFRAIL_ARCHIVE_DIR").unwrap_or_else(|_| usual());
    println!("cargo:rerun-if-changed={folder}/libtaffrail.a");
    println!("cargo:rustc-link-search=native={folder}");
    println!("cargo:rustc-link-lib=static=taffrail");
    if env::var_os("CARGO_FEATURE_BEFORE").is_some() {
        let folder = concat!(env!("CARGO_MANIFEST_DIR"), "/../target/before");
        println!("cargo:rerun-if-changed={folder}/libbefore.a");
        println!("cargo:rustc-link-search=native={folder}");
        println!("cargo:rustc-link-lib=static=before");
    }
}
