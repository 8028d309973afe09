fn main() {
    let here = std::env::var("CARGO_MANIFEST_DIR").expect("cargo says where the crate is");
    println!("cargo:rustc-link-search=native={here}/../../target/staticlib");
    for archive in ["compiler", "clock_c", "front_c"] {
        println!("cargo:rerun-if-changed={here}/../../target/staticlib/lib{archive}.a");
    }
}
