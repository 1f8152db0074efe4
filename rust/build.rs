//! Links the static library that `rt lib` writes in crates/exports. JIMRAWEL_LIB names its folder where that is not crates/exports/out.

use std::{env, path::PathBuf};

fn main() {
    println!("cargo:rerun-if-env-changed=JIMRAWEL_LIB");
    let folder = env::var("JIMRAWEL_LIB").map(PathBuf::from).unwrap_or_else(|_| {
        PathBuf::from(env::var("CARGO_MANIFEST_DIR").unwrap()).join("../crates/exports/out")
    });
    println!("cargo:rerun-if-changed={}", folder.join("libexports.a").display());
    println!("cargo:rustc-link-search=native={}", folder.display());
    println!("cargo:rustc-link-lib=static=exports");
}
