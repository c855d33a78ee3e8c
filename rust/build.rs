//! Links the static library that `rt lib` leaves in crates/exports.
use std::path::Path;

fn main() {
    let here = std::env::var("CARGO_MANIFEST_DIR").unwrap_or_default();
    let made = Path::new(&here).join("../crates/exports/out");
    let library = made.join("libexports.a");
    assert!(library.exists(), "there is no {}: `rt lib` in crates/exports makes it", library.display());
    println!("cargo:rustc-link-search=native={}", made.display());
    println!("cargo:rustc-link-lib=static=exports");
    println!("cargo:rerun-if-changed={}", library.display());
}
