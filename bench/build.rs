//! Links the static libraries of the crates `bench_host` and `svcd_c`, which `tests/static-library` writes.

fn main() {
    let here = std::env::var("CARGO_MANIFEST_DIR").expect("cargo says where the package is");
    println!("cargo:rustc-link-search=native={here}/../target/staticlib");
    for library in ["bench_host", "svcd"] {
        println!("cargo:rustc-link-lib=static={library}");
        println!("cargo:rerun-if-changed={here}/../target/staticlib/lib{library}.a");
    }
}
