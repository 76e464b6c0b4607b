//! Links the static library of crate `svcd_c`, which `tests/static-library svcd_c` writes. SVCD_LIB names another folder with a libsvcd.a in
//! it.

fn main() {
    let here = std::env::var("CARGO_MANIFEST_DIR").expect("cargo says where the package is");
    let built = format!("{here}/../../target/staticlib");
    let folder = std::env::var("SVCD_LIB").unwrap_or(built);
    println!("cargo:rustc-link-search=native={folder}");
    println!("cargo:rustc-link-lib=static=svcd");
    println!("cargo:rerun-if-env-changed=SVCD_LIB");
    println!("cargo:rerun-if-changed={folder}/libsvcd.a");
}
