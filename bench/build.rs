// Where an archive of another commit is that the program links beside the one of `archive`: in BEFORE_DIR, which makes one more side.
use std::env;

fn main() {
    println!("cargo:rustc-check-cfg=cfg(before)");
    if let Ok(before) = env::var("BEFORE_DIR") {
        println!("cargo:rustc-cfg=before");
        println!("cargo:rustc-link-search=native={before}");
        println!("cargo:rerun-if-changed={before}/libbefore.a");
    }
    println!("cargo:rerun-if-env-changed=BEFORE_DIR");
}
