//! Links the archive that `tools/archive` writes.

fn main() {
    let here = std::env::var("CARGO_MANIFEST_DIR").expect("cargo says where the package is");
    let archive = format!("{here}/../target/staticlib");
    println!("cargo:rustc-link-search=native={archive}");
    println!("cargo:rustc-link-lib=static=thatchnip");
    println!("cargo:rerun-if-changed={archive}/libthatchnip.a");
}
