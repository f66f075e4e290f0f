//! Links the static library that `tools/build-library` makes, from target/staticlib or from the folder in WASILEKO_LIB.
use std::env;
use std::path::{Path, PathBuf};

fn main() {
    println!("cargo:rerun-if-env-changed=WASILEKO_LIB");
    let folder = env::var_os("WASILEKO_LIB")
        .map_or_else(|| Path::new(&env::var_os("CARGO_MANIFEST_DIR").unwrap()).join("../../target/staticlib"), PathBuf::from);
    let library = folder.join("libexports.a");
    if !library.exists() {
        panic!("no {}: run `tools/build-library`, or name its folder in WASILEKO_LIB", library.display());
    }
    println!("cargo:rerun-if-changed={}", library.display());
    println!("cargo:rustc-link-search=native={}", folder.display());
    println!("cargo:rustc-link-lib=static=exports");
}
