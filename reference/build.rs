//! With the feature `compare`, links libsandegmur.a from SANDEGMUR_LIB into the programs that call it.

use std::env;
use std::path::Path;

fn main() {
    println!("cargo:rerun-if-changed=build.rs");
    println!("cargo:rerun-if-env-changed=SANDEGMUR_LIB");
    if env::var_os("CARGO_FEATURE_COMPARE").is_none() {
        return;
    }
    let directory = match env::var_os("SANDEGMUR_LIB") {
        Some(directory) => directory,
        None => {
            println!("cargo:warning=SANDEGMUR_LIB is not set; compare, ask and pages will not link");
            return;
        }
    };
    let library = Path::new(&directory).join("libsandegmur.a");
    println!("cargo:rerun-if-changed={}", library.display());
    for program in ["compare", "ask", "pages"] {
        println!("cargo:rustc-link-arg-bin={program}={}", library.display());
        // A Rust library brings its own copy of shared pieces such as the panic handler.
        println!("cargo:rustc-link-arg-bin={program}=-Wl,--allow-multiple-definition");
    }
}
