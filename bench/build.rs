// Links the static library of the checker, and the kit's part of the C library that it calls.
use std::env;

fn main() {
    for folder in ["KELOMBARY_LIBRARY", "RATTLE_LIBRARIES"] {
        println!("cargo:rerun-if-env-changed={folder}");
        let path = env::var(folder).unwrap_or_else(|_| panic!("{folder} is not set: start bench/run"));
        println!("cargo:rustc-link-search=native={path}");
        println!("cargo:rerun-if-changed={path}");
    }
    println!("cargo:rustc-link-lib=static=kelombary_c");
    println!("cargo:rustc-link-lib=static=libc_c");
}
