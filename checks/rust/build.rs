//! Tells the linker where the product's static libraries are: target/staticlib under the repository root.

use std::env;
use std::fs;
use std::path::Path;

fn main() {
    let package = env::var("CARGO_MANIFEST_DIR").expect("cargo names the package's folder");
    let root = Path::new(&package).ancestors().nth(2).expect("the package is two folders below the root");
    let libraries = root.join("target/staticlib");
    println!("cargo:rustc-link-search=native={}", libraries.display());
    println!("cargo:rerun-if-changed=build.rs");
    for name in ["nauvelppi", "probe"] {
        let library = libraries.join(format!("lib{name}.a"));
        println!("cargo:rerun-if-changed={}", library.display());
        // Cargo does not look into what it links: a library of another time is another environment, and so linked anew.
        let time = fs::metadata(&library).and_then(|about| about.modified());
        println!("cargo:rustc-env=LIBRARY_{name}={time:?}");
    }
}
