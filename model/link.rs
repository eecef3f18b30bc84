//! Where the proved libraries are found by the programs that link them.

fn main() {
    let top = std::env::var("CARGO_MANIFEST_DIR").expect("set by cargo");
    println!("cargo:rustc-link-search=native={top}/target/staticlib");
    println!("cargo:rerun-if-changed=model/link.rs");
}
