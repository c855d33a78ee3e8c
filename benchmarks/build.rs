//! Links the two databases that the store is measured beside (Debian: libsqlite3-dev, liblmdb-dev).
fn main() {
    println!("cargo:rustc-link-lib=dylib=sqlite3");
    println!("cargo:rustc-link-lib=dylib=lmdb");
    println!("cargo:rerun-if-changed=build.rs");
}
