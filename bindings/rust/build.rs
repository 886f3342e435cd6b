//! Links the archive that `rt lib` writes in crates/narguvesh_c: from `NARGUVESH_LIB_DIR`, or from `crates/narguvesh_c/out` of the repository.
use std::env;
use std::path::PathBuf;

fn main() {
    println!("cargo:rerun-if-env-changed=NARGUVESH_LIB_DIR");
    let folder = match env::var_os("NARGUVESH_LIB_DIR") {
        Some(folder) => PathBuf::from(folder),
        None => PathBuf::from(env::var_os("CARGO_MANIFEST_DIR").expect("cargo sets it")).join("../../crates/narguvesh_c/out"),
    };
    let archive = folder.join("libnarguvesh_c.a");
    println!("cargo:rerun-if-changed={}", archive.display());
    assert!(archive.is_file(), "no {}: run `rt lib` in crates/narguvesh_c, or set NARGUVESH_LIB_DIR", archive.display());
    println!("cargo:rustc-link-search=native={}", folder.display());
    println!("cargo:rustc-link-lib=static=narguvesh_c");
}
