//! Links `libtakhvoi.a`: of the folder `TAKHVOI_DIR` where that is set, else of where pkg-config knows it to be installed.

use std::path::PathBuf;
use std::process::Command;

/// The folder that pkg-config names.
fn installed() -> Option<PathBuf> {
    let told = Command::new("pkg-config").args(["--variable=libdir", "takhvoi"]).output().ok()?;
    let path = String::from_utf8(told.stdout).ok()?;
    (told.status.success() && !path.trim().is_empty()).then(|| PathBuf::from(path.trim()))
}

fn main() {
    println!("cargo:rerun-if-env-changed=TAKHVOI_DIR");
    println!("cargo:rerun-if-env-changed=PKG_CONFIG_PATH");
    let folder = std::env::var_os("TAKHVOI_DIR").map(PathBuf::from).or_else(installed);
    let Some(folder) = folder else {
        println!("cargo:warning=TAKHVOI_DIR is not set, and pkg-config does not know takhvoi");
        return;
    };
    println!("cargo:rerun-if-changed={}", folder.join("libtakhvoi.a").display());
    println!("cargo:rustc-link-search=native={}", folder.display());
    println!("cargo:rustc-link-lib=static=takhvoi");
}
