//! Links the static library: from the folder that PLATEMAKER_LIBRARY names, else from where `make lib` has it proved.

use std::env;
use std::path::PathBuf;

fn main() {
    let package = PathBuf::from(env::var_os("CARGO_MANIFEST_DIR").expect("set by cargo"));
    let folder = env::var_os("PLATEMAKER_LIBRARY").map_or(package.join("../target/staticlib"), PathBuf::from);
    println!("cargo:rerun-if-env-changed=PLATEMAKER_LIBRARY");
    println!("cargo:rerun-if-changed={}", folder.join("libplatemaker.a").display());
    println!("cargo:rustc-link-search=native={}", folder.display());
    println!("cargo:rustc-link-lib=static=platemaker");
}
