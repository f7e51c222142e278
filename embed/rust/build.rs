//! Links the engine's archive, `libzagyvelon.a`: from the folder that `ZAGYVELON_LIB_DIR` names, else from the repository's own build.

use std::env;
use std::path::PathBuf;

const FOLDER: &str = "ZAGYVELON_LIB_DIR";

fn main() {
    let folder = env::var_os(FOLDER).map_or_else(built_here, PathBuf::from);
    let archive = folder.join("libzagyvelon.a");
    assert!(
        archive.is_file(),
        "no {}: run `tools/built zagyvelon` in the repository, or set {FOLDER}",
        archive.display()
    );
    println!("cargo:rustc-link-search=native={}", folder.display());
    println!("cargo:rustc-link-lib=static=zagyvelon");
    println!("cargo:rerun-if-env-changed={FOLDER}");
    println!("cargo:rerun-if-changed={}", archive.display());
}

fn built_here() -> PathBuf {
    PathBuf::from(env::var_os("CARGO_MANIFEST_DIR").expect("cargo sets it"))
        .join("../../crates/zagyvelon/out")
}
