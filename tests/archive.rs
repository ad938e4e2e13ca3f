//! For the build scripts of the test packages: finds a library in the folder that a variable names, or where
//! `tools/build` puts it.

use std::env;
use std::path::PathBuf;
use std::process;

pub fn find(name: &str, variable: &str) {
    println!("cargo:rerun-if-env-changed={variable}");
    let folder = match env::var_os(variable) {
        Some(folder) => PathBuf::from(folder),
        None => PathBuf::from(env::var_os("CARGO_MANIFEST_DIR").expect("cargo sets it"))
            .join("../../target/staticlib"),
    };
    let archive = folder.join(format!("lib{name}.a"));
    println!("cargo:rerun-if-changed={}", archive.display());
    if !archive.is_file() {
        eprintln!(
            "{} is missing: run `tools/build all` first, or set {variable} to the absolute \
             path of the folder that has lib{name}.a",
            archive.display()
        );
        process::exit(1);
    }
    println!("cargo:rustc-link-search=native={}", folder.display());
}
