// Says where the static library is: JIEHKAVON_LIB_DIR, or where `rt lib` in crates/desk_c writes it.
use std::env;
use std::path::PathBuf;

const LIBRARY: &str = "libdesk_c.a";

fn main() {
    let dir = match env::var_os("JIEHKAVON_LIB_DIR") {
        Some(dir) => PathBuf::from(dir),
        None => PathBuf::from(env::var_os("CARGO_MANIFEST_DIR").expect("cargo says where the crate is")).join("../crates/desk_c/out"),
    };
    let library = dir.join(LIBRARY);
    if !library.exists() {
        println!(
            "cargo:warning={} is not there: run `rt lib` in crates/desk_c, or set JIEHKAVON_LIB_DIR",
            library.display()
        );
    }
    println!("cargo:rerun-if-env-changed=JIEHKAVON_LIB_DIR");
    println!("cargo:rerun-if-changed={}", library.display());
    println!("cargo:rustc-link-search=native={}", dir.display());
    println!("cargo:rustc-link-lib=static=desk_c");
}
