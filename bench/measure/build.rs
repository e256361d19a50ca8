//! Links the static library of the proved calls, and the kit's C functions that it allocates by. `bench/run` names their folders.
use std::env;

fn link(variable: &str, library: &str) {
    println!("cargo:rerun-if-env-changed={variable}");
    let folder =
        env::var(variable).unwrap_or_else(|_| panic!("{variable} is not set: use bench/run"));
    println!("cargo:rerun-if-changed={folder}/lib{library}.a");
    println!("cargo:rustc-link-search=native={folder}");
    println!("cargo:rustc-link-lib=static={library}");
}

fn main() {
    link("CALLS_FOLDER", "calls");
    link("KIT_C_FOLDER", "libc_c");
}
