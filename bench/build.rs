// Links the library and the archives of the crates for benches: `bench/run` makes them first.
use std::path::{Path, PathBuf};

fn main() {
    let root = PathBuf::from(std::env::var("CARGO_MANIFEST_DIR").unwrap()).join("..");
    link(&root.join("target/library"), "mooringeye");
    for name in [
        "archive_bench",
        "burst_bench",
        "erp2_bench",
        "repack_bench",
        "report_bench",
        "take_bench",
    ] {
        link(&root.join(format!("crates/{name}/out")), name);
    }
}

fn link(dir: &Path, name: &str) {
    let archive = dir.join(format!("lib{name}.a"));
    println!("cargo:rustc-link-search=native={}", dir.display());
    println!("cargo:rustc-link-lib=static={name}");
    println!("cargo:rerun-if-changed={}", archive.display());
}
