//! Links the archive: that in the folder KESTRELRACK_LIB_DIR, or the one in the package.

use std::env;
use std::path::PathBuf;

fn main() {
    println!("cargo::rerun-if-env-changed=KESTRELRACK_LIB_DIR");
    let folder = match env::var_os("KESTRELRACK_LIB_DIR") {
        Some(folder) => PathBuf::from(folder),
        None => PathBuf::from(env::var_os("CARGO_MANIFEST_DIR").expect("cargo sets it")).join("lib"),
    };
    let archive = folder.join("libkestrelrack.a");
    assert!(archive.is_file(), "{} doesn't exist: run bindings/build, or set KESTRELRACK_LIB_DIR", archive.display());
    let target = (env::var("CARGO_CFG_TARGET_ARCH"), env::var("CARGO_CFG_TARGET_OS"));
    assert_eq!(target, (Ok("x86_64".into()), Ok("linux".into())), "the archive is for x86-64 under Linux");
    println!("cargo::rerun-if-changed={}", archive.display());
    println!("cargo::rustc-link-search=native={}", folder.display());
    println!("cargo::rustc-link-lib=static=kestrelrack");
}
