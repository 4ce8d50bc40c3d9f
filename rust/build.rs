//! Says where the archive is: in the folder that ERNAVLUQ_ARCHIVE names, or else where `./run archive` writes that for this processor.
use std::env::{var, var_os};
use std::path::PathBuf;

fn main() {
    let here = PathBuf::from(var_os("CARGO_MANIFEST_DIR").expect("cargo sets CARGO_MANIFEST_DIR"));
    let processor = var("CARGO_CFG_TARGET_ARCH").expect("cargo sets CARGO_CFG_TARGET_ARCH");
    let folder = match var_os("ERNAVLUQ_ARCHIVE") {
        Some(folder) => PathBuf::from(folder),
        None => here.join("../target/staticlib").join(processor),
    };
    let archive = folder.join("libernavluq.a");
    println!("cargo:rerun-if-env-changed=ERNAVLUQ_ARCHIVE");
    println!("cargo:rerun-if-changed={}", archive.display());
    if !archive.is_file() {
        eprintln!(
            "{} is not there: run `./run archive`, or set ERNAVLUQ_ARCHIVE to its folder",
            archive.display()
        );
        std::process::exit(1);
    }
    println!("cargo:rustc-link-search=native={}", folder.display());
    println!("cargo:rustc-link-lib=static=ernavluq");
}
