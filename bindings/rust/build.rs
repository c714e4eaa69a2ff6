//! Links the static library: from the folder that BCDER_LIB_DIR names, or from where `./install`
//! put it, as pkg-config knows it.
use std::process::Command;

fn main() {
    println!("cargo:rerun-if-env-changed=BCDER_LIB_DIR");
    let folder = std::env::var("BCDER_LIB_DIR").ok().or_else(|| {
        let found = Command::new("pkg-config").args(["--variable=libdir", "bcder"]).output().ok()?;
        let folder = String::from_utf8(found.stdout).ok()?.trim().to_owned();
        (!folder.is_empty()).then_some(folder)
    });
    if let Some(folder) = folder {
        println!("cargo:rerun-if-changed={folder}/libbcder.a");
        println!("cargo:rustc-link-search=native={folder}");
    }
    println!("cargo:rustc-link-lib=static=bcder");
}
