//! Links the proved library, which `rt lib` writes in the folder of `bench_evaluate_c`, under the name that its callers know.
fn main() {
    let root = std::env::var("CARGO_MANIFEST_DIR").unwrap() + "/..";
    println!("cargo:rustc-link-search=native={root}/target/staticlib");
    println!("cargo:rustc-link-lib=static=bench_evaluate");
    println!("cargo:rerun-if-changed={root}/target/staticlib/libbench_evaluate.a");
}
