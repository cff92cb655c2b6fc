//! Links the static library of look-ups and primitives that PRIMITIVES_LIB names (libraries.sh writes it).
use std::{env, path::PathBuf};

fn main() {
    println!("cargo:rerun-if-env-changed=PRIMITIVES_LIB");
    let library = PathBuf::from(env::var("PRIMITIVES_LIB").expect("PRIMITIVES_LIB names the static library, a file libprimitives.a"));
    println!("cargo:rerun-if-changed={}", library.display());
    println!("cargo:rustc-link-search=native={}", library.parent().unwrap().display());
    println!("cargo:rustc-link-lib=static=primitives");
}
