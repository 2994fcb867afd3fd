//! Links the proved libraries, static archives built from `../crates/dashboard_c` and `../crates/planning_times_c`.

use std::path::Path;

fn main() {
    let root = std::env::var("CARGO_MANIFEST_DIR").expect("cargo names the package's folder");
    let folder = Path::new(&root).join("../target/staticlib");
    println!("cargo:rustc-link-search=native={}", folder.display());
    println!("cargo:rerun-if-changed=build.rs");
    for name in ["dashboard", "planning_times"] {
        let archive = folder.join(format!("lib{name}.a"));
        println!("cargo:rustc-link-lib=static={name}");
        println!("cargo:rerun-if-changed={}", archive.display());
    }
}
