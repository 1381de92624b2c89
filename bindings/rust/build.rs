//! Links libspecparse.a, which bindings/build makes in bindings/out; SPECPARSE_LIB names another
//! folder of it.

fn main() {
    let own = concat!(env!("CARGO_MANIFEST_DIR"), "/../out").to_string();
    let folder = std::env::var("SPECPARSE_LIB").unwrap_or(own);
    let archive = format!("{folder}/libspecparse.a");
    if !std::path::Path::new(&archive).exists() {
        panic!("there is no {archive}: bindings/build makes it");
    }
    println!("cargo:rustc-link-search=native={folder}");
    println!("cargo:rustc-link-lib=static=specparse");
    println!("cargo:rerun-if-env-changed=SPECPARSE_LIB");
    println!("cargo:rerun-if-changed={archive}");
}
