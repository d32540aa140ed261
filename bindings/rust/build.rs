//! Links libexport.a, liblists.a and libknown.a from STRIKEBOOK_LIB_DIR, or from where `tools/build` writes them.

fn main() {
    let default = concat!(env!("CARGO_MANIFEST_DIR"), "/../../target/staticlib");
    let folder = std::env::var("STRIKEBOOK_LIB_DIR").unwrap_or_else(|_| default.to_string());
    println!("cargo:rerun-if-env-changed=STRIKEBOOK_LIB_DIR");
    println!("cargo:rustc-link-search=native={folder}");
    for library in ["export", "lists", "known"] {
        println!("cargo:rerun-if-changed={folder}/lib{library}.a");
        println!("cargo:rustc-link-lib=static={library}");
    }
}
