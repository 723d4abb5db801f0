//! Where libtteuyomal.a stands: the folder that TTEUYOMAL_LIB names, or the repository's own after `make`.
use std::env;
use std::path::Path;

fn main() {
    let folder = env::var("TTEUYOMAL_LIB").unwrap_or_else(|_| {
        let here = env::var("CARGO_MANIFEST_DIR").expect("cargo says where the crate is");
        Path::new(&here).join("../target/staticlib").display().to_string()
    });
    println!("cargo:rustc-link-search=native={folder}");
    println!("cargo:rustc-link-lib=static=tteuyomal");
    println!("cargo:rerun-if-changed={folder}/libtteuyomal.a");
    println!("cargo:rerun-if-env-changed=TTEUYOMAL_LIB");
}
