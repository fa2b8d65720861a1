//! Finds the original's three files and takes the one call of `check_necessity` out of `analyze`.
//!
//! `BITHOVEN_SOURCES` names the folder with ast.rs, analyze.rs and necessity.rs. Two of them are compiled where they
//! lie. Of analyze.rs a copy without the call goes to harness/target/oracle/, which git ignores.

use std::path::{Path, PathBuf};
use std::{env, fs};

/// The function whose call goes.
const CALLED: &str = "check_necessity(";

fn main() {
    println!("cargo:rerun-if-env-changed=BITHOVEN_SOURCES");
    let sources = env::var("BITHOVEN_SOURCES").expect("BITHOVEN_SOURCES must name the folder of the original's sources");
    let sources = fs::canonicalize(&sources).unwrap_or_else(|e| panic!("{sources}: {e}"));
    let analyze = write_without_call(&sources.join("analyze.rs"));
    let modules = [("ast", sources.join("ast.rs")), ("analyze", analyze), ("necessity", sources.join("necessity.rs"))];
    write_modules(&modules);
}

/// Writes the copy of analyze.rs that lacks the call, and says where it is.
fn write_without_call(from: &Path) -> PathBuf {
    println!("cargo:rerun-if-changed={}", from.display());
    let text = fs::read_to_string(from).unwrap_or_else(|e| panic!("{}: {e}", from.display()));
    let calls: Vec<&str> = text.split_inclusive('\n').filter(|line| is_call(line)).collect();
    assert_eq!(calls.len(), 1, "analyze.rs must call `{CALLED}..)` in one line, which is then left out");
    let folder = Path::new(&env::var("CARGO_MANIFEST_DIR").unwrap()).join("../target/oracle");
    fs::create_dir_all(&folder).unwrap();
    let to = fs::canonicalize(folder).unwrap().join("analyze.rs");
    fs::write(&to, text.replacen(calls[0], "\n", 1)).unwrap();
    to
}

/// Is the line one statement that calls the function? Comments are not.
fn is_call(line: &str) -> bool {
    let code = line.trim();
    !code.starts_with("//") && code.contains(CALLED) && code.ends_with(';')
}

/// Writes the module lines that src/lib.rs includes.
fn write_modules(modules: &[(&str, PathBuf)]) {
    let mut text = String::new();
    for (name, path) in modules {
        println!("cargo:rerun-if-changed={}", path.display());
        text += &format!("#[path = {:?}]\npub mod {name};\n", path.to_str().unwrap());
    }
    fs::write(Path::new(&env::var("OUT_DIR").unwrap()).join("modules.rs"), text).unwrap();
}
