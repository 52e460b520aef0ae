//! Links the static library `exports`, from FONDDRYS_STATICLIB_DIR where that
//! is set and from ../target/staticlib otherwise.

use std::env;
use std::path::PathBuf;

fn main() {
    println!("cargo:rerun-if-env-changed=FONDDRYS_STATICLIB_DIR");
    let directory = match env::var_os("FONDDRYS_STATICLIB_DIR") {
        Some(given) => PathBuf::from(given),
        None => {
            let manifest = env::var_os("CARGO_MANIFEST_DIR").expect("cargo sets this");
            PathBuf::from(manifest).join("../target/staticlib")
        }
    };
    let archive = directory.join("libexports.a");
    println!("cargo:rerun-if-changed={}", archive.display());
    println!("cargo:rustc-link-search=native={}", directory.display());
    println!("cargo:rustc-link-lib=static=exports");
}
