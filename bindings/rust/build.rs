//! Names the proved archive to the linker: in the folder that ULDREVIN_ARCHIVE names, or where `make library` leaves it.

use std::env;
use std::path::{Path, PathBuf};
use std::process::exit;

fn folder() -> PathBuf {
    match env::var_os("ULDREVIN_ARCHIVE") {
        Some(named) => PathBuf::from(named),
        None => Path::new(env!("CARGO_MANIFEST_DIR")).join("../../target/staticlib"),
    }
}

fn main() {
    let folder = folder();
    let archive = folder.join("libuldrevin.a");
    println!("cargo:rerun-if-env-changed=ULDREVIN_ARCHIVE");
    println!("cargo:rerun-if-changed={}", archive.display());
    if !archive.exists() {
        println!(
            "cargo:warning={} is not there: run `make library` first",
            archive.display()
        );
        exit(1);
    }
    println!("cargo:rustc-link-search=native={}", folder.display());
    println!("cargo:rustc-link-lib=static=uldrevin");
}
