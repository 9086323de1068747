//! Links the proved calls: libcapi.a and libhost.a in the folder that
//! CITTERNBLAZE_LIB names, or else in target/staticlib of the repository, where
//! `scripts/libraries.sh capi host` puts them.

use std::env;
use std::path::{Path, PathBuf};

fn main() {
    let package = env::var("CARGO_MANIFEST_DIR").expect("cargo sets the package's folder");
    let folder = match env::var_os("CITTERNBLAZE_LIB") {
        Some(folder) => PathBuf::from(folder),
        None => Path::new(&package).join("../target/staticlib"),
    };
    println!("cargo:rerun-if-env-changed=CITTERNBLAZE_LIB");
    println!("cargo:rustc-env=CITTERNBLAZE_LINKED={}", folder.display());
    println!("cargo:rustc-link-search=native={}", folder.display());
    for name in ["capi", "host"] {
        let library = folder.join(format!("lib{name}.a"));
        assert!(
            library.is_file(),
            "{} is missing: run `scripts/libraries.sh {name}`",
            library.display()
        );
        println!("cargo:rerun-if-changed={}", library.display());
        println!("cargo:rustc-link-lib=static={name}");
    }
}
