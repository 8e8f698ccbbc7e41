//! Links the proved static library, `libmunchalep.a`: from the folder that `MUNCHALEP_LIB` names,
//! else from where `./build library` puts it. A relative path starts at this package.

use std::{env, path};

fn main() {
    let folder = env::var("MUNCHALEP_LIB").unwrap_or("../target/staticlib".into());
    let folder = path::absolute(folder).expect("a path and a current folder");
    let library = folder.join("libmunchalep.a");
    println!("cargo::rerun-if-env-changed=MUNCHALEP_LIB");
    println!("cargo::rerun-if-changed={}", library.display());
    if library.is_file() {
        println!("cargo::rustc-link-search=native={}", folder.display());
        println!("cargo::rustc-link-lib=static=munchalep");
    } else {
        println!(
            "cargo::error={} is not there. Make it by `./build library` at the repository's root, \
             or set MUNCHALEP_LIB to the folder that has it.",
            library.display()
        );
    }
}
