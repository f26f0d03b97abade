//! Links the static library that run.sh builds, and the toolchain's C code below it.
fn main() {
    for folder in std::env::var("BENCH_LIBRARIES").expect("run.sh sets it").split(':') {
        println!("cargo:rustc-link-search=native={folder}");
        println!("cargo:rerun-if-changed={folder}");
    }
    println!("cargo:rerun-if-env-changed=BENCH_LIBRARIES");
}
