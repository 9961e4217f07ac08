// Links the archive that `archive/build` writes.
use std::env;
use std::path::Path;

fn main() {
    let own = env::var("CARGO_MANIFEST_DIR").expect("cargo sets it");
    let beside = Path::new(&own).join("../target/staticlib");
    let folder = env::var("M7_LIB").unwrap_or_else(|_| beside.display().to_string());
    println!("cargo:rustc-link-search=native={folder}");
    println!("cargo:rustc-link-lib=static=m7");
    println!("cargo:rerun-if-env-changed=M7_LIB");
    println!("cargo:rerun-if-changed={folder}/libm7.a");
}
