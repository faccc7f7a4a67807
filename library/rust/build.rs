//! Finds the static library: in the folder that FIURACCJU_LIB_DIR names, else where `rt lib` leaves it.

use std::env;
use std::path::PathBuf;
use std::process::exit;

const VARIABLE: &str = "FIURACCJU_LIB_DIR";
const ARCHIVE: &str = "libfiuraccju_c.a";

fn main() {
    println!("cargo:rerun-if-env-changed={VARIABLE}");
    let folder = folder();
    // The linker may run in another folder than this program.
    let folder = folder.canonicalize().unwrap_or(folder);
    let archive = folder.join(ARCHIVE);
    println!("cargo:rerun-if-changed={}", archive.display());
    if !archive.is_file() {
        eprintln!(
            "fiuraccju: there is no {}.\n\
             Make it with `rt lib` in the repository's crates/fiuraccju_c (on a processor other than x86-64 with \
             `bench/native-staticlib fiuraccju_c`), or name the folder that holds it in {VARIABLE}.",
            archive.display()
        );
        exit(1);
    }
    println!("cargo:rustc-link-search=native={}", folder.display());
    println!("cargo:rustc-link-lib=static=fiuraccju_c");
}

fn folder() -> PathBuf {
    match env::var_os(VARIABLE) {
        Some(named) => PathBuf::from(named),
        None => PathBuf::from("../../crates/fiuraccju_c/out"),
    }
}
