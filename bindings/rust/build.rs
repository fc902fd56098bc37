//! Links the static library of the resolver, `libwit_ffi.a`, in `bindings/out` or in the folder that
//! `WIT_FFI_FOLDER` names.

use std::env;
use std::path::PathBuf;

fn main() {
    let manifest = PathBuf::from(env::var("CARGO_MANIFEST_DIR").unwrap_or_default());
    let bindings = manifest.ancestors().find(|at| at.ends_with("bindings")).unwrap_or(&manifest);
    let folder = env::var("WIT_FFI_FOLDER").map_or(bindings.join("out"), PathBuf::from);
    println!("cargo::rerun-if-env-changed=WIT_FFI_FOLDER");
    println!("cargo::rerun-if-changed={}", folder.join("libwit_ffi.a").display());
    println!("cargo::rustc-link-search=native={}", folder.display());
    println!("cargo::rustc-link-lib=static=wit_ffi");
}
