//! Links the static library of crate `bench_host`, which `tests/static-library bench_host` writes. BENCH_HOST_LIB names another folder with a
//! libbench_host.a in it.

fn main() {
    let here = std::env::var("CARGO_MANIFEST_DIR").expect("cargo says where the package is");
    let built = format!("{here}/../../target/staticlib");
    let folder = std::env::var("BENCH_HOST_LIB").unwrap_or(built);
    println!("cargo:rustc-link-search=native={folder}");
    println!("cargo:rustc-link-lib=static=bench_host");
    println!("cargo:rerun-if-env-changed=BENCH_HOST_LIB");
    println!("cargo:rerun-if-changed={folder}/libbench_host.a");
}
