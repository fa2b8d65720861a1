//! Links the examiner's static library, which `BITHOVEN_LIBRARY` names.

use std::path::Path;
use std::{env, fs};

fn main() {
    println!("cargo:rerun-if-env-changed=BITHOVEN_LIBRARY");
    let library = env::var("BITHOVEN_LIBRARY").expect("BITHOVEN_LIBRARY must name the examiner's static library");
    println!("cargo:rerun-if-changed={library}");
    // The linker finds it by name, so whatever the file is called it is copied.
    let folder = env::var("OUT_DIR").unwrap();
    fs::copy(&library, Path::new(&folder).join("libbithoven_examiner.a")).unwrap_or_else(|e| panic!("{library}: {e}"));
    println!("cargo:rustc-link-search=native={folder}");
    println!("cargo:rustc-link-lib=static=bithoven_examiner");
}
