//! Links libdurpaxeta.a: from the directory DURPAXETA_LIB_DIR, or else from build/ of the repository (`make lib`).

use std::env;
use std::path::PathBuf;
use std::process::exit;

fn main() {
    println!("cargo:rerun-if-env-changed=DURPAXETA_LIB_DIR");
    let directory = env::var_os("DURPAXETA_LIB_DIR").map_or_else(
        || PathBuf::from(env::var_os("CARGO_MANIFEST_DIR").unwrap_or_default()).join("../../build"),
        PathBuf::from,
    );
    let archive = directory.join("libdurpaxeta.a");
    println!("cargo:rerun-if-changed={}", archive.display());
    if !archive.is_file() {
        eprintln!("{} is not there. Run `make lib`, or set DURPAXETA_LIB_DIR.", archive.display());
        exit(1);
    }
    println!("cargo:rustc-link-search=native={}", directory.display());
    println!("cargo:rustc-link-lib=static=durpaxeta");
}
