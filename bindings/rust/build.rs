//! Finds libmallettriton.a and libmallettriton_folded.a: in the directory that MALLETTRITON_LIB_DIR names; else in target/staticlib of the repository, or in lib of an unpacked release.
use std::env;
use std::path::PathBuf;
use std::process::exit;

const LIBRARIES: [&str; 2] = ["mallettriton", "mallettriton_folded"];

fn main() {
    println!("cargo:rerun-if-env-changed=MALLETTRITON_LIB_DIR");
    let directory = match env::var_os("MALLETTRITON_LIB_DIR") {
        Some(named) => PathBuf::from(named),
        None => {
            let top = PathBuf::from(env::var_os("CARGO_MANIFEST_DIR").expect("cargo sets CARGO_MANIFEST_DIR")).join("../..");
            let released = top.join("lib");
            if released.is_dir() {
                released
            } else {
                top.join("target/staticlib")
            }
        }
    };
    println!("cargo:rustc-link-search=native={}", directory.display());
    for library in LIBRARIES {
        let archive = directory.join(format!("lib{library}.a"));
        println!("cargo:rerun-if-changed={}", archive.display());
        if !archive.is_file() {
            eprintln!("{} is not there.", archive.display());
            eprintln!("In the root of the Mallettriton repository run");
            eprintln!();
            eprintln!("    tools/staticlib {library}");
            eprintln!();
            eprintln!("which proves the library and writes target/staticlib/lib{library}.a; or let MALLETTRITON_LIB_DIR name the directory that has it.");
            exit(1);
        }
        println!("cargo:rustc-link-lib=static={library}");
    }
}
