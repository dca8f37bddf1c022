//! Finds the proved responder's static library: `$SPDM_LIB_DIR/libspdm_responder.a`, or, without that variable, the
//! repository's `target/staticlib/libspdm_responder.a`. A relative SPDM_LIB_DIR is taken from this crate's directory.

use std::env;
use std::path::PathBuf;

fn main() {
    println!("cargo:rerun-if-env-changed=SPDM_LIB_DIR");
    let here = PathBuf::from(env::var_os("CARGO_MANIFEST_DIR").expect("cargo sets CARGO_MANIFEST_DIR"));
    let dir = match env::var_os("SPDM_LIB_DIR") {
        Some(dir) => here.join(dir),
        None => here.join("../target/staticlib"),
    };
    let library = dir.join("libspdm_responder.a");
    println!("cargo:rerun-if-changed={}", library.display());
    if !library.is_file() {
        panic!("{} is not there: build the library first, or set SPDM_LIB_DIR", library.display());
    }
    println!("cargo:rustc-link-search=native={}", dir.display());
    println!("cargo:rustc-link-lib=static=spdm_responder");
}
