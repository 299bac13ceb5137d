//! Tells the linker where the engine's archive `libengine.a` lies.

use std::env;
use std::path::{Path, PathBuf};

fn main() {
    println!("cargo:rerun-if-env-changed=LUPIKNAM_LIB");
    let folder = match env::var_os("LUPIKNAM_LIB") {
        Some(folder) => PathBuf::from(folder),
        None => Path::new(&env::var_os("CARGO_MANIFEST_DIR").expect("set by cargo"))
            .join("../target/staticlib"),
    };
    // A new archive must be linked anew, though no Rust file has changed.
    println!(
        "cargo:rerun-if-changed={}",
        folder.join("libengine.a").display()
    );
    println!("cargo:rustc-link-search=native={}", folder.display());
}
