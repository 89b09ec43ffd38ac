// Says where the archives of the proved library are: in BOUNDARY_DIR, or where `tools/archive target/archive` writes them.
use std::env;

fn main() {
    let here = env::var("CARGO_MANIFEST_DIR").expect("cargo sets the manifest's folder");
    let folder = env::var("BOUNDARY_DIR").unwrap_or_else(|_| format!("{here}/../target/archive"));
    println!("cargo:rustc-link-search=native={folder}");
    for library in ["boundary", "boundary_bytes"] {
        println!("cargo:rerun-if-changed={folder}/lib{library}.a");
    }
    println!("cargo:rerun-if-env-changed=BOUNDARY_DIR");
}
