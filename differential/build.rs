//! Links the library of an earlier commit, which `differential/run` leaves as libbefore.a in the folder JIMRAWEL_BEFORE, for the feature `before`.

use std::env;

fn main() {
    println!("cargo:rerun-if-env-changed=JIMRAWEL_BEFORE");
    if env::var_os("CARGO_FEATURE_BEFORE").is_some() {
        let folder = env::var("JIMRAWEL_BEFORE").expect("the folder of libbefore.a");
        println!("cargo:rerun-if-changed={folder}/libbefore.a");
        println!("cargo:rustc-link-search=native={folder}");
        println!("cargo:rustc-link-lib=static=before");
    }
}
