//! With the feature `border` (and no stand-in) link the static library of the C border.

use std::env;
use std::path::Path;

fn main() {
    println!("cargo:rerun-if-changed=build.rs");
    println!("cargo:rerun-if-env-changed=PLOTUNIT_LIB_DIR");
    if env::var_os("CARGO_FEATURE_BORDER").is_none() || env::var_os("CARGO_FEATURE_STANDIN").is_some() {
        return;
    }
    let folder = env::var("PLOTUNIT_LIB_DIR").unwrap_or_else(|_| {
        let here = env::var("CARGO_MANIFEST_DIR").expect("cargo names the package's folder");
        format!("{here}/../crates/plotunit/out")
    });
    let library = Path::new(&folder).join("libplotunit.a");
    if !library.exists() {
        panic!("{} is not there: run `rt lib` in crates/plotunit first", library.display());
    }
    println!("cargo:rerun-if-changed={}", library.display());
    println!("cargo:rustc-link-search=native={folder}");
    println!("cargo:rustc-link-lib=static=plotunit");
}
