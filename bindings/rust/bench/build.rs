//! Compiles libical.c if pkg-config finds libical. Without it the benchmark is built all the same, and says so when it runs.
use std::env;
use std::path::{Path, PathBuf};
use std::process::Command;

/// The words that a command prints, if it is there and does not fail.
fn words_of(command: &mut Command) -> Option<Vec<String>> {
    let output = command.output().ok().filter(|output| output.status.success())?;
    Some(String::from_utf8_lossy(&output.stdout).split_whitespace().map(String::from).collect())
}

/// Compiles libical.c into an archive in `directory`, and gives libical's version.
fn compiled(directory: &Path) -> Option<String> {
    let version = words_of(Command::new("pkg-config").args(["--modversion", "libical"]))?.join(" ");
    let flags = words_of(Command::new("pkg-config").args(["--cflags", "libical"]))?;
    let object = directory.join("libical.o");
    let archive = directory.join("libbeside.a");
    words_of(Command::new("cc").args(["-O2", "-c"]).args(flags).arg("libical.c").arg("-o").arg(&object))?;
    words_of(Command::new("ar").arg("crs").arg(&archive).arg(&object))?;
    for word in words_of(Command::new("pkg-config").args(["--libs-only-L", "libical"]))? {
        println!("cargo:rustc-link-search=native={}", word.trim_start_matches("-L"));
    }
    Some(version)
}

fn main() {
    println!("cargo:rerun-if-changed=build.rs");
    println!("cargo:rerun-if-changed=libical.c");
    println!("cargo:rerun-if-env-changed=PKG_CONFIG_PATH");
    println!("cargo:rustc-check-cfg=cfg(libical)");
    let directory = PathBuf::from(env::var_os("OUT_DIR").expect("cargo sets OUT_DIR"));
    if let Some(version) = compiled(&directory) {
        println!("cargo:rustc-cfg=libical");
        println!("cargo:rustc-env=LIBICAL_VERSION={version}");
        println!("cargo:rustc-link-search=native={}", directory.display());
        println!("cargo:rustc-link-lib=static=beside");
        println!("cargo:rustc-link-lib=ical");
    }
}
