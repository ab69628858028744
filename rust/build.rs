//! Links the proved archive, libvirginalmimas.a, which `rt lib` in crates/virginalmimas writes. VIRGINALMIMAS_ARCHIVE
//! names its folder; the default is crates/virginalmimas/out of the repository.

use std::env;
use std::path::PathBuf;

fn main() {
    println!("cargo::rerun-if-env-changed=VIRGINALMIMAS_ARCHIVE");
    let folder = match env::var_os("VIRGINALMIMAS_ARCHIVE") {
        Some(folder) => PathBuf::from(folder),
        None => PathBuf::from(env::var_os("CARGO_MANIFEST_DIR").unwrap()).join("../crates/virginalmimas/out"),
    };
    let archive = folder.join("libvirginalmimas.a");
    println!("cargo::rerun-if-changed={}", archive.display());
    if !archive.exists() {
        let missing = "`rt lib` in crates/virginalmimas writes it";
        println!("cargo::error=no libvirginalmimas.a in {}: {missing}", folder.display());
        return;
    }
    println!("cargo::rustc-link-search=native={}", folder.display());
    println!("cargo::rustc-link-lib=static=virginalmimas");
}
