//! Finds libfirmware.a and librecords.a, in the folder that a variable names or where `tools/build` puts them.

use std::env;
use std::path::PathBuf;
use std::process;

fn main() {
    for (name, variable, word) in [
        ("firmware", "FIRMWARE_LIB_DIR", "firmware-library"),
        ("records", "RECORDS_LIB_DIR", "library"),
    ] {
        if name == "firmware" && env::var_os("CARGO_FEATURE_CONTROLLER").is_none() {
            continue;
        }
        println!("cargo:rerun-if-env-changed={variable}");
        let folder = match env::var_os(variable) {
            Some(folder) => PathBuf::from(folder),
            None => PathBuf::from(env::var_os("CARGO_MANIFEST_DIR").expect("cargo sets it"))
                .join("../target/staticlib"),
        };
        let archive = folder.join(format!("lib{name}.a"));
        println!("cargo:rerun-if-changed={}", archive.display());
        if !archive.is_file() {
            eprintln!(
                "{} is missing: run `tools/build {word}` first, or set {variable} to the absolute path of its folder",
                archive.display()
            );
            process::exit(1);
        }
        println!("cargo:rustc-link-search=native={}", folder.display());
    }
    println!("cargo:rerun-if-changed=names.txt");
    println!("cargo:rerun-if-changed=../VERSION");
}
