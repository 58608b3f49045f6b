//! Finds the C library `sourcemap` and links it.
//!
//! If `SOURCEMAP_LIBRARY_DIR` is set, that folder must have it. Otherwise it is looked
//! for in `lib`, where a release has it, in `../c/out`, then by pkg-config, and then
//! left to the linker. If a folder has
//! both the static and the shared library, the static one is linked, unless
//! `SOURCEMAP_LIBRARY_KIND` is `shared`.

use std::env;
use std::path::{Path, PathBuf};
use std::process::Command;

const LIBRARY_DIR: &str = "SOURCEMAP_LIBRARY_DIR";
const LIBRARY_KIND: &str = "SOURCEMAP_LIBRARY_KIND";

fn main() {
    println!("cargo:rerun-if-env-changed={LIBRARY_DIR}");
    println!("cargo:rerun-if-env-changed={LIBRARY_KIND}");
    println!("cargo:rerun-if-env-changed=PKG_CONFIG_PATH");
    println!("cargo:rerun-if-changed=build.rs");
    if let Some(folder) = env::var_os(LIBRARY_DIR) {
        let folder = absolute(Path::new(&folder));
        if !link_from(&folder) {
            panic!(
                "{LIBRARY_DIR} is {}, which has no library sourcemap",
                folder.display()
            );
        }
    } else if !link_from(&inside()) && !link_from(&beside()) && !link_by_pkg_config() {
        println!("cargo:warning=libsourcemap is left to the linker: bindings/c/build makes it, {LIBRARY_DIR} names its folder");
        println!("cargo:rustc-link-lib=sourcemap");
    }
}

/// The folder of a released package.
fn inside() -> PathBuf {
    Path::new(env!("CARGO_MANIFEST_DIR")).join("lib")
}

/// The folder that `bindings/c/build` fills.
fn beside() -> PathBuf {
    Path::new(env!("CARGO_MANIFEST_DIR")).join("../c/out")
}

fn absolute(folder: &Path) -> PathBuf {
    folder.canonicalize().unwrap_or_else(|_| folder.to_owned())
}

/// Links the library of a folder, and returns whether the folder has it.
fn link_from(folder: &Path) -> bool {
    let archive = folder.join("libsourcemap.a");
    let shared = ["libsourcemap.so", "libsourcemap.dylib", "sourcemap.dll"]
        .map(|name| folder.join(name))
        .into_iter()
        .find(|path| path.exists());
    let wants_shared = env::var_os(LIBRARY_KIND).is_some_and(|kind| kind == "shared");
    let library = match shared {
        Some(shared) if wants_shared || !archive.exists() => shared,
        _ => archive.clone(),
    };
    println!("cargo:rerun-if-changed={}", library.display());
    if !library.exists() {
        return false;
    }
    println!("cargo:rustc-link-search=native={}", folder.display());
    if library == archive {
        println!("cargo:rustc-link-lib=static=sourcemap");
    } else {
        println!("cargo:rustc-link-lib=dylib=sourcemap");
        // Tests and benches of this package then run without LD_LIBRARY_PATH.
        println!("cargo:rustc-link-arg=-Wl,-rpath,{}", folder.display());
    }
    true
}

/// Links the library that pkg-config knows, and returns whether it knows one.
fn link_by_pkg_config() -> bool {
    let output = Command::new("pkg-config")
        .args(["--variable=libdir", "sourcemap"])
        .output();
    match output {
        Ok(output) if output.status.success() => {
            link_from(Path::new(String::from_utf8_lossy(&output.stdout).trim()))
        }
        _ => false,
    }
}
