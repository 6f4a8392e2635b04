//! Links libmooringeye: that of MOORINGEYE_LIB_DIR, one that pkg-config finds, or that of the repository, which is built.
use std::path::{Path, PathBuf};
use std::process::Command;

const HELP: &str = "libmooringeye is not found. Let MOORINGEYE_LIB_DIR name the folder that has libmooringeye.a or \
                    libmooringeye.so, or let PKG_CONFIG_PATH name the one that has mooringeye.pc; a release has them in lib \
                    and lib/pkgconfig. In the repository, bin/library builds it.";

fn main() {
    println!("cargo:rerun-if-changed=build.rs");
    for name in ["MOORINGEYE_LIB_DIR", "PKG_CONFIG_PATH", "PKG_CONFIG"] {
        println!("cargo:rerun-if-env-changed={name}");
    }
    let dir = named().or_else(installed).or_else(built).unwrap_or_else(|| panic!("{HELP}"));
    link(&dir);
}

/// The folder that MOORINGEYE_LIB_DIR names.
fn named() -> Option<PathBuf> {
    std::env::var_os("MOORINGEYE_LIB_DIR").map(PathBuf::from)
}

/// The folder of an installed library of this crate's major version.
fn installed() -> Option<PathBuf> {
    let program = std::env::var_os("PKG_CONFIG").unwrap_or_else(|| "pkg-config".into());
    let wanted = format!("mooringeye >= {}", env!("CARGO_PKG_VERSION"));
    let below = format!("mooringeye < {}", env!("CARGO_PKG_VERSION_MAJOR").parse::<u32>().ok()? + 1);
    let exists = Command::new(&program).args(["--exists", &wanted, &below]).status().ok()?;
    if !exists.success() {
        return None;
    }
    let out = Command::new(&program).args(["--variable=libdir", "mooringeye"]).output().ok()?;
    let dir = String::from_utf8(out.stdout).ok()?;
    (!dir.trim().is_empty()).then(|| PathBuf::from(dir.trim()))
}

/// The folder in the repository that has this crate; the library is built if it is missing.
fn built() -> Option<PathBuf> {
    let root = Path::new(env!("CARGO_MANIFEST_DIR")).join("../..");
    let dir = root.join("target/library");
    if !dir.join("libmooringeye.a").exists() {
        let command = root.join("bin/library");
        if !command.exists() {
            return None;
        }
        let status = Command::new(&command).status().ok()?;
        assert!(status.success(), "{} did not build the library", command.display());
    }
    Some(dir)
}

fn link(dir: &Path) {
    let (archive, shared) = (dir.join("libmooringeye.a"), dir.join("libmooringeye.so"));
    assert!(archive.exists() || shared.exists(), "{} has no libmooringeye. {HELP}", dir.display());
    let kind = if archive.exists() { "static" } else { "dylib" };
    println!("cargo:rustc-link-search=native={}", dir.display());
    println!("cargo:rustc-link-lib={kind}=mooringeye");
    println!("cargo:rerun-if-changed={}", if archive.exists() { archive } else { shared }.display());
}
