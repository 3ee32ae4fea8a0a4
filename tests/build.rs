//! Links the static library `capi` from the folder in PALHAVENTO_LIB.
//!
//! Without the archive the crate still builds, so that the model's own tests run (`cargo test --lib`). Each test that
//! calls the library fails then and says so.

use std::env;
use std::path::PathBuf;

fn main() {
    println!("cargo::rerun-if-env-changed=PALHAVENTO_LIB");
    println!("cargo::rustc-check-cfg=cfg(library_present)");
    let here = PathBuf::from(env::var("CARGO_MANIFEST_DIR").expect("cargo names the folder of the package"));
    let folder = here.join(env::var("PALHAVENTO_LIB").unwrap_or_else(|_| "../target/staticlib".to_string()));
    let archive = folder.join("libcapi.a");
    println!("cargo::rerun-if-changed={}", archive.display());
    if archive.is_file() {
        println!("cargo::rustc-cfg=library_present");
        println!("cargo::rustc-link-search=native={}", folder.display());
        println!("cargo::rustc-link-lib=static=capi");
    } else {
        println!("cargo::warning=libcapi.a is not in {}: only the model can be tested", folder.display());
    }
}
