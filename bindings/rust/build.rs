//! Says where the archive is: in the folder that TEGBALOWU_LIBDIR names, or where pkg-config finds it.

use std::process::Command;

fn main() {
    println!("cargo::rerun-if-env-changed=TEGBALOWU_LIBDIR");
    println!("cargo::rerun-if-env-changed=PKG_CONFIG_PATH");
    let folder = std::env::var("TEGBALOWU_LIBDIR").ok().or_else(|| {
        let found = Command::new("pkg-config").args(["--variable=libdir", "tegbalowu"]).output().ok()?;
        found.status.success().then(|| String::from_utf8_lossy(&found.stdout).trim().to_string())
    });
    match folder {
        Some(folder) => println!("cargo::rustc-link-search=native={folder}"),
        None => println!("cargo::error=pkg-config does not find tegbalowu: set PKG_CONFIG_PATH, or TEGBALOWU_LIBDIR"),
    }
    println!("cargo::rustc-link-lib=static=tegbalowu");
}
