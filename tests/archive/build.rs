//! Names the proved archive, crates/pongilad/out/libpongilad.a, to the linker.

fn main() {
    let here = std::env::var("CARGO_MANIFEST_DIR").unwrap();
    let folder = format!("{here}/../../crates/pongilad/out");
    println!("cargo:rustc-link-search=native={folder}");
    println!("cargo:rustc-link-lib=static=pongilad");
    println!("cargo:rerun-if-changed={folder}/libpongilad.a");
}
