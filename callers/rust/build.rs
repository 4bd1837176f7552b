// SPDX-License-Identifier: Apache-2.0
//! Finds the proved library and says how to link with it.
//!
//! It is looked for in the folder that `FOALMORROW_LIB_DIR` names, in a checkout where `checks/callers.sh` has built
//! it, and by pkg-config, in this order. The feature `static` asks for the static library.
use std::env;
use std::path::{Path, PathBuf};
use std::process::Command;

/// What is said where the library is nowhere.
const MISSING: &str = "the proved library isn't here: install the package libfoalmorrow-dev, which pkg-config finds, \
or set FOALMORROW_LIB_DIR to a folder with libfoalmorrow.a or libfoalmorrow.so";

/// Returns whether a folder is linked with, by its static library or its shared one.
fn link_in(folder: &Path, name: &str, prefers_static: bool) -> bool {
    let (static_library, shared_library) = (folder.join(format!("lib{name}.a")), folder.join(format!("lib{name}.so")));
    let (kind, file) = if static_library.is_file() && (prefers_static || !shared_library.is_file()) {
        ("static", static_library)
    } else if shared_library.is_file() && !prefers_static {
        ("dylib", shared_library)
    } else {
        return false;
    };
    println!("cargo::rerun-if-changed={}", file.display());
    println!("cargo::rustc-link-search=native={}", folder.display());
    println!("cargo::rustc-link-lib={kind}={name}");
    true
}

/// Returns what pkg-config says of the library, or nothing where it doesn't know one of this version.
fn by_pkg_config(word: &str) -> Option<String> {
    let version = format!("foalmorrow >= {}", env!("CARGO_PKG_VERSION"));
    let program = env::var_os("PKG_CONFIG").unwrap_or_else(|| "pkg-config".into());
    let told = Command::new(program).args([word, &version]).output().ok()?;
    told.status.success().then(|| String::from_utf8_lossy(&told.stdout).trim().to_owned())
}

/// Returns whether the library is linked with where pkg-config finds it.
fn link_by_pkg_config(prefers_static: bool) -> bool {
    let Some(folder) = by_pkg_config("--variable=libdir") else { return false };
    // Under a root of its own the folder is told as it is there.
    let root = env::var("PKG_CONFIG_SYSROOT_DIR").unwrap_or_default();
    let inside = PathBuf::from(format!("{root}{folder}"));
    link_in(&inside, "foalmorrow", prefers_static) || link_in(Path::new(&folder), "foalmorrow", prefers_static)
}

/// Links with the first library that is found, or says why none is.
fn link(prefers_static: bool) -> Result<(), String> {
    if let Some(folder) = env::var_os("FOALMORROW_LIB_DIR") {
        let folder = PathBuf::from(folder);
        let is_found = link_in(&folder, "foalmorrow", prefers_static);
        let fault = || format!("FOALMORROW_LIB_DIR is {}, where no libfoalmorrow is to link with", folder.display());
        return is_found.then_some(()).ok_or_else(fault);
    }
    let manifest = env::var("CARGO_MANIFEST_DIR").map_err(|_| "cargo tells no folder of the crate")?;
    let built = Path::new(&manifest).join("../out");
    let is_found = link_in(&built, "vortex_ffi", true) || link_by_pkg_config(prefers_static);
    is_found.then_some(()).ok_or_else(|| MISSING.to_owned())
}

fn main() {
    for name in ["FOALMORROW_LIB_DIR", "PKG_CONFIG", "PKG_CONFIG_PATH", "PKG_CONFIG_LIBDIR", "PKG_CONFIG_SYSROOT_DIR"] {
        println!("cargo::rerun-if-env-changed={name}");
    }
    println!("cargo::rerun-if-changed=build.rs");
    // The pages of a crate are made where no library is.
    if env::var_os("DOCS_RS").is_some() {
        return;
    }
    if let Err(fault) = link(env::var_os("CARGO_FEATURE_STATIC").is_some()) {
        println!("cargo::error={fault}");
    }
}
