//! Links `libpciplan.a`, from the folder that `PCIPLAN_LIB_DIR` names or pkg-config knows.
use std::{env, process::Command};

fn main() {
    println!("cargo:rerun-if-env-changed=PCIPLAN_LIB_DIR");
    println!("cargo:rerun-if-env-changed=PKG_CONFIG_PATH");
    let folder = env::var("PCIPLAN_LIB_DIR").ok().or_else(folder_of_pkg_config);
    if let Some(folder) = folder {
        println!("cargo:rustc-link-search=native={folder}");
        println!("cargo:rerun-if-changed={folder}/libpciplan.a");
    }
    println!("cargo:rustc-link-lib=static=pciplan");
}

fn folder_of_pkg_config() -> Option<String> {
    let told = Command::new("pkg-config").args(["--variable=libdir", "pciplan"]).output().ok()?;
    let folder = String::from_utf8(told.stdout).ok()?.trim().to_string();
    (told.status.success() && !folder.is_empty()).then_some(folder)
}
