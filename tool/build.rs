//! Links the proved archives of WINDNADEL_ARCHIVES, or of ../target/staticlib.

use std::env;
use std::path::{Path, PathBuf};

fn main() {
    let here = env::var_os("CARGO_MANIFEST_DIR").expect("cargo names the package's folder");
    let made = Path::new(&here).join("../target/staticlib");
    let archives = env::var_os("WINDNADEL_ARCHIVES").map_or(made, PathBuf::from);
    println!("cargo:rerun-if-env-changed=WINDNADEL_ARCHIVES");
    println!("cargo:rustc-link-search=native={}", archives.display());
    for name in ["compiler", "stepper", "kiss_write", "kiss_read"] {
        let archive = archives.join(format!("lib{name}.a"));
        assert!(archive.is_file(), "{} is not there: `tools/archive {name}` makes it", archive.display());
        println!("cargo:rerun-if-changed={}", archive.display());
        println!("cargo:rustc-link-lib=static={name}");
    }
}
