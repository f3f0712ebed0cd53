//! Says where libstrikes.a is: in the folder that STRIKES_LIB names, else in `build` of this repository, where `make` puts it.

fn main() {
    let here = std::env::var("CARGO_MANIFEST_DIR").expect("cargo sets it");
    let folder = std::env::var("STRIKES_LIB").unwrap_or_else(|_| format!("{here}/../../build"));
    println!("cargo:rerun-if-env-changed=STRIKES_LIB");
    println!("cargo:rustc-link-search=native={folder}");
    println!("cargo:rustc-link-lib=static=strikes");
}
