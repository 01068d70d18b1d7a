//! With the feature `product`: links the static library of this repository, which `rt lib` leaves as
//! crates/embed_c/out/libembed_c.a, under the name that a host knows, libembed.a; or libembed.a of the folder EMBED_DIR.
//! With `copies` the linker sends the calls of memcpy and memmove to src/copies.rs.

fn main() {
    println!("cargo:rerun-if-env-changed=EMBED_DIR");
    if std::env::var_os("CARGO_FEATURE_PRODUCT").is_some() {
        let here = std::env::var("CARGO_MANIFEST_DIR").expect("cargo names the package's folder");
        let folder = std::env::var("EMBED_DIR").unwrap_or_else(|_| copied(&here));
        println!("cargo:rustc-link-search=native={folder}");
        println!("cargo:rustc-link-lib=static=embed");
        println!("cargo:rerun-if-changed={folder}/libembed.a");
    }
    if std::env::var_os("CARGO_FEATURE_COPIES").is_some() {
        println!("cargo:rustc-link-arg-bins=-Wl,--wrap=memcpy,--wrap=memmove");
    }
}

/// Copies the library to the build's own folder as libembed.a, and names that folder.
fn copied(here: &str) -> String {
    let built = format!("{here}/../crates/embed_c/out/libembed_c.a");
    let folder = std::env::var("OUT_DIR").expect("cargo names the build's folder");
    println!("cargo:rerun-if-changed={built}");
    std::fs::copy(&built, format!("{folder}/libembed.a"))
        .expect("crates/embed_c/out/libembed_c.a, as rt lib leaves it");
    folder
}
