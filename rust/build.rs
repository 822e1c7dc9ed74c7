//! Finds libuisnabar.a: in the folder that UISNABAR_LIB_DIR names, or as `./bench lib` built it beside this crate, or
//! in the tree that this crate was installed with, or where pkg-config says. The archive is for x86-64 Linux.
use std::env;
use std::path::{Path, PathBuf};
use std::process::Command;

const ARCHIVE: &str = "libuisnabar.a";

/// A folder that was named outright is the one or none is: no other archive is taken instead.
fn folders(here: &Path) -> Vec<PathBuf> {
    if let Some(named) = env::var_os("UISNABAR_LIB_DIR") {
        return vec![PathBuf::from(named)];
    }
    let mut folders = vec![here.join("../target/staticlib"), here.join("../../../lib")];
    if let Ok(told) = Command::new("pkg-config").args(["--variable=libdir", "uisnabar"]).output() {
        let folder = String::from_utf8_lossy(&told.stdout).trim().to_owned();
        if told.status.success() && !folder.is_empty() {
            folders.push(PathBuf::from(folder));
        }
    }
    folders
}

fn main() {
    println!("cargo:rerun-if-changed=build.rs");
    println!("cargo:rerun-if-env-changed=UISNABAR_LIB_DIR");
    println!("cargo:rerun-if-env-changed=PKG_CONFIG_PATH");
    let target = env::var("TARGET").expect("cargo names the target");
    if !target.starts_with("x86_64-") || !target.contains("linux") {
        panic!("libuisnabar.a is for x86-64 Linux, not for {target}");
    }
    let here = PathBuf::from(env::var_os("CARGO_MANIFEST_DIR").expect("cargo names the crate's folder"));
    let folders = folders(&here);
    let found = folders.iter().find(|folder| folder.join(ARCHIVE).is_file());
    let folder = found.and_then(|folder| folder.canonicalize().ok()).unwrap_or_else(|| {
        panic!("no {ARCHIVE} in {folders:?}: run `./bench lib`, or name its folder in UISNABAR_LIB_DIR")
    });
    println!("cargo:rerun-if-changed={}", folder.join(ARCHIVE).display());
    println!("cargo:rustc-link-search=native={}", folder.display());
    println!("cargo:rustc-link-lib=static=uisnabar");
}
