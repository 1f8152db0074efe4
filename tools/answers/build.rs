//! Lays the reference's four files where `src/lib.rs` includes them, unchanged.
//! REFERENCE names their folder; `src/common.rs` may also be called `src--src--common.rs.txt` there.

use std::{env, fs, path::PathBuf};

fn main() {
    println!("cargo:rerun-if-env-changed=REFERENCE");
    let reference = PathBuf::from(env::var("REFERENCE").expect("REFERENCE names the reference's folder"));
    let out = PathBuf::from(env::var("OUT_DIR").unwrap());
    for module in ["autotest", "bottomup", "common", "results"] {
        let names = [format!("src/{module}.rs"), format!("src--src--{module}.rs.txt"), format!("{module}.rs")];
        let file = names
            .iter()
            .map(|name| reference.join(name))
            .find(|path| path.is_file())
            .unwrap_or_else(|| panic!("no {module}.rs in {}", reference.display()));
        println!("cargo:rerun-if-changed={}", file.display());
        fs::copy(&file, out.join(format!("{module}.rs"))).unwrap();
    }
}
