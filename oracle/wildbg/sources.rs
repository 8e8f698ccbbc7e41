//! Shared by the build scripts of `engine` and `logic`: takes wildbg's files over, unchanged.

use std::path::Path;
use std::{env, fs};

/// Copies `files` of wildbg's crate `name`, byte for byte, to where the build may write, beside a
/// root that declares `modules`. `#[path]` would spare the copy, but a module loaded by it looks
/// for its own modules in the wrong folder.
pub fn take_over(name: &str, modules: &[&str], files: &[&str]) {
    println!("cargo::rerun-if-env-changed=WILDBG");
    let Ok(wildbg) = env::var("WILDBG") else {
        println!("cargo::error=set WILDBG to wildbg's folder, or use oracle/run");
        return;
    };
    let source = Path::new(&wildbg).join("crates").join(name).join("src");
    for file in files {
        let from = source.join(file);
        println!("cargo::rerun-if-changed={}", from.display());
        match fs::read(&from) {
            Ok(bytes) => write(file, &bytes),
            Err(error) => println!("cargo::error={}: {error}", from.display()),
        }
    }
    let root: String = modules.iter().map(|m| format!("pub mod {m};\n")).collect();
    write("lib.rs", root.as_bytes());
}

/// Writes a file of the crate, in its folder.
pub fn write(file: &str, bytes: &[u8]) {
    let path = Path::new(&env::var("OUT_DIR").expect("cargo sets it")).join(file);
    fs::create_dir_all(path.parent().expect("it has a folder")).expect("the folder is made");
    fs::write(path, bytes).expect("the file is written");
}
