//! Tells the linker where libtazbrev is: in the folder that `TAZBREV_LIB_DIR` names, else where the system looks.

use std::env;
use std::path::Path;

/// The file that a program names at its start.
const SHARED: &str = "libtazbrev.so.0";

fn main() {
    println!("cargo:rerun-if-env-changed=TAZBREV_LIB_DIR");
    let Ok(folder) = env::var("TAZBREV_LIB_DIR") else {
        println!("cargo:rustc-link-lib=dylib=tazbrev");
        return;
    };
    let folder = Path::new(&folder);
    println!("cargo:rustc-link-search=native={}", folder.display());
    if folder.join("libtazbrev.so").exists() {
        println!("cargo:rustc-link-lib=dylib=tazbrev");
    } else if folder.join(SHARED).exists() {
        println!("cargo:rustc-link-lib=dylib:+verbatim={SHARED}");
    } else if folder.join("libtazbrev.a").exists() {
        println!("cargo:rustc-link-lib=static=tazbrev");
    } else {
        println!("cargo:warning={} has no libtazbrev", folder.display());
        println!("cargo:rustc-link-lib=dylib=tazbrev");
    }
}
