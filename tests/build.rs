// Tells the linker where the archives under comparison lie, when they are to be linked.

use std::env;
use std::path::Path;

const FOLDER: &str = "TECELUME_LIB_DIR";

fn main() {
    println!("cargo::rerun-if-env-changed={FOLDER}");
    println!("cargo::rerun-if-changed=build.rs");
    archive("link", "libtecelume.a");
    archive("conversions", "libbench_entries.a");
}

/// The archive that a feature links.
fn archive(feature: &str, name: &str) {
    if env::var_os(format!("CARGO_FEATURE_{}", feature.to_uppercase())).is_none() {
        return;
    }
    let Ok(folder) = env::var(FOLDER) else {
        println!("cargo::error=feature `{feature}`: set {FOLDER} to the folder of {name}");
        return;
    };
    let archive = Path::new(&folder).join(name);
    if !archive.is_file() {
        println!("cargo::error=feature `{feature}`: no {}", archive.display());
        return;
    }
    println!("cargo::rerun-if-changed={}", archive.display());
    println!("cargo::rustc-link-search=native={folder}");
}
