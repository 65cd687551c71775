//! Tells the linker where `bench/run` put what is written in C.

fn main() {
    let made = concat!(env!("CARGO_MANIFEST_DIR"), "/../target/bench");
    println!("cargo:rerun-if-changed=build.rs");
    println!("cargo:rerun-if-changed={made}/libhost.a");
    println!("cargo:rustc-link-search=native={made}");
    println!("cargo:rustc-link-lib=static=host");
    println!("cargo:rustc-link-lib=tirpc");
}
