//! Links libtd.a, from the folder that TD_LIBRARY names, or from crates/td_c/out of this repository, where `./build --library` leaves it.

use std::env;
use std::path::PathBuf;

fn main() {
    println!("cargo:rerun-if-env-changed=TD_LIBRARY");
    let here = PathBuf::from(env::var_os("CARGO_MANIFEST_DIR").expect("cargo sets it"));
    let folder = env::var_os("TD_LIBRARY").map_or_else(|| here.join("../../crates/td_c/out"), PathBuf::from);
    println!("cargo:rustc-link-search=native={}", folder.display());
    println!("cargo:rustc-link-lib=static=td");
    println!("cargo:rerun-if-changed={}", folder.join("libtd.a").display());
}
