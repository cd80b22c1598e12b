//! Tells cargo where the proved library is. Only the integration tests and the
//! benchmarks link it, so the crate and its unit tests build without it.
//!
//! The path is relative, to this folder, in which cargo compiles: a copy of the
//! repository links its own library.

const ARCHIVE: &str = "../target/staticlib/libburgee.a";

fn main() {
    println!("cargo:rerun-if-changed=build.rs");
    println!("cargo:rerun-if-changed={ARCHIVE}");
    println!("cargo:rustc-link-arg-tests={ARCHIVE}");
    println!("cargo:rustc-link-arg-benches={ARCHIVE}");
}
