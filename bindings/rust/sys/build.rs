//! Links the archive `libtuhvondi.a` of this version or a later one: in the folder that `TUHVONDI_LIB_DIR` names, else where
//! `pkg-config tuhvondi` says, else in `/usr/local/lib`.

use std::path::Path;
use std::process::Command;

/// The folder that pkg-config knows.
fn known() -> Option<String> {
    let minimum = concat!(
        "--atleast-version=",
        env!("CARGO_PKG_VERSION_MAJOR"),
        ".",
        env!("CARGO_PKG_VERSION_MINOR")
    );
    let fits = Command::new("pkg-config")
        .args([minimum, "tuhvondi"])
        .status()
        .ok()?
        .success();
    let said = Command::new("pkg-config")
        .args(["--variable=libdir", "tuhvondi"])
        .output()
        .ok()?;
    fits.then(|| String::from_utf8_lossy(&said.stdout).trim().to_owned())
}

fn main() {
    for name in ["TUHVONDI_LIB_DIR", "PKG_CONFIG_PATH"] {
        println!("cargo::rerun-if-env-changed={name}");
    }
    let named = std::env::var("TUHVONDI_LIB_DIR").ok();
    let folder = named
        .or_else(known)
        .unwrap_or_else(|| "/usr/local/lib".to_owned());
    let archive = Path::new(&folder).join("libtuhvondi.a");
    // Documentation is made without a library.
    if !archive.exists() && std::env::var_os("DOCS_RS").is_none() {
        println!(
            "cargo::error={} is not there: install libtuhvondi-dev, or set TUHVONDI_LIB_DIR",
            archive.display()
        );
    }
    println!("cargo::rerun-if-changed={}", archive.display());
    println!("cargo::rustc-link-search=native={folder}");
    println!("cargo::rustc-link-lib=static=tuhvondi");
}
