//! Says where libtteuyomal.a stands: target/staticlib of this repository, or the folder that TTEUYOMAL_LIB names.

use std::env;
use std::path::PathBuf;

fn main() {
    let here = PathBuf::from(env::var_os("CARGO_MANIFEST_DIR").expect("cargo sets it"));
    let folder = match env::var_os("TTEUYOMAL_LIB") {
        Some(named) => PathBuf::from(named),
        None => here.join("../target/staticlib"),
    };
    let archive = folder.join("libtteuyomal.a");
    println!("cargo:rerun-if-env-changed=TTEUYOMAL_LIB");
    println!("cargo:rerun-if-changed={}", archive.display());
    println!("cargo:rustc-link-search=native={}", folder.display());
    println!("cargo:rustc-env=TTEUYOMAL_ARCHIVE={}", archive.display());
    if !archive.is_file() {
        println!("cargo:warning=no libtteuyomal.a: `make` writes it of the code in made/, `make prove` of what is proved here; or name its folder in TTEUYOMAL_LIB. `cargo test --lib` needs none.");
    }
}
