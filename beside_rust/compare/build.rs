//! With the feature `engine`: links libbeside.a of the folder that BESIDE_LIB names.

use std::env;

fn main() {
    println!("cargo:rerun-if-env-changed=BESIDE_LIB");
    if env::var_os("CARGO_FEATURE_ENGINE").is_some() {
        let folder = env::var("BESIDE_LIB").expect("BESIDE_LIB: the folder of libbeside.a");
        println!("cargo:rerun-if-changed={folder}/libbeside.a");
        println!("cargo:rustc-link-search=native={folder}");
        println!("cargo:rustc-link-lib=static=beside");
    }
}
