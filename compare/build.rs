//! Links the proved library: an archive `libexports.a` in the folder that
//! STATICLIB_DIR names, or in `crates/exports/out` of the repository.

use std::env;
use std::path::{Path, PathBuf};

fn main() {
    let folder = match env::var_os("STATICLIB_DIR") {
        Some(folder) => PathBuf::from(folder),
        None => Path::new(env!("CARGO_MANIFEST_DIR")).join("../crates/exports/out"),
    };
    println!("cargo:rerun-if-env-changed=STATICLIB_DIR");
    println!(
        "cargo:rerun-if-changed={}",
        folder.join("libexports.a").display()
    );
    println!("cargo:rustc-link-search=native={}", folder.display());
    println!("cargo:rustc-link-lib=static=exports");
}
