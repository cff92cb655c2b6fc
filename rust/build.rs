//! Links the static library of the store: the file that RECIPE_LIB names, or what `rt lib` wrote in crates/ffi. A shared library, lib*.so, is for
//! `differential/mutate_store.sh`.
use std::{env, path::PathBuf};

fn library() -> PathBuf {
    println!("cargo:rerun-if-env-changed=RECIPE_LIB");
    match env::var_os("RECIPE_LIB") {
        Some(path) => PathBuf::from(path),
        None => PathBuf::from(env::var_os("CARGO_MANIFEST_DIR").unwrap()).join("../crates/ffi/out/libffi.a"),
    }
}

fn main() {
    let path = library();
    assert!(path.is_absolute(), "RECIPE_LIB is no absolute path: {}", path.display());
    assert!(path.is_file(), "no library at {}: run `rt lib` in crates/ffi, or set RECIPE_LIB", path.display());
    let file = path.file_name().and_then(|name| name.to_str()).unwrap_or("");
    let stem = file.strip_prefix("lib").unwrap_or("");
    let (kind, name) = match (stem.strip_suffix(".a"), stem.strip_suffix(".so")) {
        (Some(name), _) => ("static", name),
        (_, Some(name)) => ("dylib", name),
        _ => panic!("the library's file is called lib*.a: {}", path.display()),
    };
    println!("cargo:rerun-if-changed={}", path.display());
    println!("cargo:rustc-link-search=native={}", path.parent().unwrap().display());
    println!("cargo:rustc-link-lib={kind}={name}");
}
