//! Links libxvfs.a, of the folder XVFS_LIBRARY or of build/library, where tools/library/run lays it.
use std::env;
use std::path::{Path, PathBuf};

fn main() {
    println!("cargo:rerun-if-env-changed=XVFS_LIBRARY");
    let own = env::var_os("CARGO_MANIFEST_DIR").expect("cargo names the folder of a package");
    let folder = match env::var_os("XVFS_LIBRARY") {
        Some(folder) => PathBuf::from(folder),
        None => Path::new(&own).join("../../build/library"),
    };
    let archive = folder.join("libxvfs.a");
    assert!(
        archive.is_file(),
        "tools/library/run makes libxvfs.a; XVFS_LIBRARY names its folder"
    );
    println!("cargo:rerun-if-changed={}", archive.display());
    println!("cargo:rustc-link-search=native={}", folder.display());
    println!("cargo:rustc-link-lib=static=xvfs");
}
