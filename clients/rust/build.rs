//! Where the library of readers is, which `make lib` makes: in the folder that HECHDORAM_READ_LIB
//! names, or in out/. Without the feature `read` nothing is linked.
use std::env;

fn main() {
    println!("cargo:rerun-if-env-changed=HECHDORAM_READ_LIB");
    if env::var_os("CARGO_FEATURE_READ").is_none() {
        return;
    }
    let here = env::var("CARGO_MANIFEST_DIR").unwrap_or_default();
    let folder = env::var("HECHDORAM_READ_LIB").unwrap_or(format!("{here}/../../out"));
    println!("cargo:rerun-if-changed={folder}/libhechdoram_read.a");
    println!("cargo:rustc-link-search=native={folder}");
    println!("cargo:rustc-link-lib=static=hechdoram_read");
}
