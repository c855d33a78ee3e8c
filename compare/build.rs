//! In the program `stack` a step of its own stands before each function of the static library, which keeps the stack
//! pointer. Crate nizgulk links that library.

use std::{env, fs, path::Path};

include!("src/names.rs");

fn main() {
    println!("cargo:rerun-if-changed=src/names.rs");
    let mut steps = String::new();
    for name in NAMES {
        println!("cargo:rustc-link-arg-bin=stack=-Wl,--wrap=nizgulk_{name}");
        steps += &format!(".globl __wrap_nizgulk_{name}\n__wrap_nizgulk_{name}:\n");
        steps += &format!("mov qword ptr [rip + {{entered}}], rsp\njmp __real_nizgulk_{name}\n");
    }
    let to = env::var("OUT_DIR").unwrap_or_default();
    fs::write(Path::new(&to).join("entered.s"), steps).expect("the directory that cargo names can be written");
}
