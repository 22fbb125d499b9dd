//! Finds the folder of libjpeg_block.a: the one that JPEG_BLOCK_LIB_DIR names;
//! else crates/jpeg_block/out of the repository that this package stands in,
//! where `rt lib` writes; else the one that pkg-config names.

use std::env;
use std::path::{Path, PathBuf};
use std::process::Command;

const ARCHIVE: &str = "libjpeg_block.a";

fn by_pkg_config() -> Result<PathBuf, String> {
    let program = env::var("PKG_CONFIG").unwrap_or_else(|_| "pkg-config".to_string());
    let said = Command::new(&program)
        .args(["--variable=libdir", "jpeg_block"])
        .output()
        .map_err(|error| format!("{program}: {error}"))?;
    let folder = String::from_utf8_lossy(&said.stdout).trim().to_string();
    if said.status.success() && !folder.is_empty() {
        Ok(PathBuf::from(folder))
    } else {
        Err(format!("{program} knows no jpeg_block"))
    }
}

fn folder() -> Result<PathBuf, String> {
    if let Some(named) = env::var_os("JPEG_BLOCK_LIB_DIR") {
        return Ok(PathBuf::from(named));
    }
    let package = env::var_os("CARGO_MANIFEST_DIR").expect("cargo sets CARGO_MANIFEST_DIR");
    let built = Path::new(&package).join("../../crates/jpeg_block/out");
    if built.join(ARCHIVE).is_file() {
        return Ok(built);
    }
    by_pkg_config().map_err(|error| {
        format!(
            "JPEG_BLOCK_LIB_DIR is not set, {} has no {ARCHIVE}, and {error}",
            built.display()
        )
    })
}

fn main() -> Result<(), String> {
    for name in [
        "JPEG_BLOCK_LIB_DIR",
        "PKG_CONFIG",
        "PKG_CONFIG_PATH",
        "PKG_CONFIG_LIBDIR",
    ] {
        println!("cargo:rerun-if-env-changed={name}");
    }
    let named = folder()?;
    // A path that does not depend on the folder that the compiler is run in.
    let folder = match named.canonicalize() {
        Ok(folder) if folder.join(ARCHIVE).is_file() => folder,
        _ => return Err(format!("{} has no {ARCHIVE}", named.display())),
    };
    println!("cargo:rerun-if-changed={}", folder.join(ARCHIVE).display());
    println!("cargo:rustc-link-search=native={}", folder.display());
    Ok(())
}
