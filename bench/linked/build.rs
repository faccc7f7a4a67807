//! Links the static libraries that `bench/run` has had proved and built. It says so where one isn't there, so that a plain
//! build of the whole workspace names the command that is missing.

use std::path::Path;

const LIBRARIES: [&str; 2] = ["form_linked", "fiuraccju_c"];

fn main() {
    let crates = Path::new(env!("CARGO_MANIFEST_DIR")).join("../../crates");
    for library in LIBRARIES {
        let folder = crates.join(library).join("out");
        let archive = folder.join(format!("lib{library}.a"));
        println!("cargo:rerun-if-changed={}", archive.display());
        if !archive.exists() {
            eprintln!(
                "there is no {}: `bench/run linked` makes it",
                archive.display()
            );
            std::process::exit(1);
        }
        println!("cargo:rustc-link-search=native={}", folder.display());
        println!("cargo:rustc-link-lib=static={library}");
    }
}
