//! Where libnt6861 is: as NT6861_LIB_DIR says; in target/lib of the repository; in lib of the folder that it was installed into; or on the linker's path.

use std::path::PathBuf;

fn main() {
    println!("cargo:rerun-if-env-changed=NT6861_LIB_DIR");
    let here = PathBuf::from(std::env::var("CARGO_MANIFEST_DIR").expect("set by cargo"));
    let named = std::env::var("NT6861_LIB_DIR").map(PathBuf::from);
    let places = [here.join("../../target/lib"), here.join("../../../lib")];
    let found = named.ok().or_else(|| places.into_iter().find(|folder| folder.join("libnt6861.a").exists()));
    match found {
        Some(folder) => {
            println!("cargo:rerun-if-changed={}", folder.join("libnt6861.a").display());
            println!("cargo:rustc-link-search=native={}", folder.display());
            println!("cargo:rustc-link-lib=static=nt6861");
        }
        None => println!("cargo:rustc-link-lib=nt6861"),
    }
}
