//! Links the static library of the crate `exports`, and the C code of the toolchain that it calls.
use std::env;

fn main() {
    let exports = env::var("EXPORTS_DIR").expect("bench/run sets EXPORTS_DIR");
    let rattle = env::var("RATTLE_LIB").expect("bench/run sets RATTLE_LIB");
    println!("cargo::rustc-link-search=native={exports}");
    println!("cargo::rustc-link-search=native={rattle}");
    println!("cargo::rustc-link-lib=static=exports");
    println!("cargo::rustc-link-lib=static=libc_c");
    println!("cargo::rerun-if-env-changed=EXPORTS_DIR");
    println!("cargo::rerun-if-changed={exports}/libexports.a");
}
