// Links libjsxlib.a: from the folder that JSXLIB_DIR names, or from crates/jsxlib/out of the repository.
use std::env;
use std::path::PathBuf;

fn main() {
    let dir = match env::var_os("JSXLIB_DIR") {
        Some(dir) => PathBuf::from(dir),
        None => {
            PathBuf::from(env::var_os("CARGO_MANIFEST_DIR").unwrap()).join("../../crates/jsxlib/out")
        }
    };
    let library = dir.join("libjsxlib.a");
    if !library.exists() {
        panic!(
            "no {}: run `rt lib` in crates/jsxlib, or set JSXLIB_DIR",
            library.display()
        );
    }
    println!("cargo:rerun-if-env-changed=JSXLIB_DIR");
    println!("cargo:rerun-if-changed={}", library.display());
    println!("cargo:rustc-link-search=native={}", dir.display());
    println!("cargo:rustc-link-lib=static=jsxlib");
}
