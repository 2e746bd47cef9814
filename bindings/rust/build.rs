//! Links librstar.a, which lies in the folder above, as in the folder that `./run --library` makes, or in that which
//! RSTAR_LIB_DIR names.

use std::env;
use std::path::Path;

fn main() {
    let folder = env::var("RSTAR_LIB_DIR").unwrap_or_else(|_| {
        let here = env::var("CARGO_MANIFEST_DIR").expect("cargo names the crate's folder");
        format!("{here}/../..")
    });
    if !Path::new(&folder).join("librstar.a").is_file() {
        panic!("no librstar.a is in {folder}: name its folder by RSTAR_LIB_DIR");
    }
    println!("cargo:rerun-if-env-changed=RSTAR_LIB_DIR");
    println!("cargo:rerun-if-changed={folder}/librstar.a");
    println!("cargo:rustc-link-search=native={folder}");
    println!("cargo:rustc-link-lib=static=rstar");
}
