//! Links the static library that `host/make rounds` makes.

fn main() {
    let folder = format!("{}/../../target/staticlib", std::env::var("CARGO_MANIFEST_DIR").unwrap());
    println!("cargo:rerun-if-changed={folder}/librounds.a");
    println!("cargo:rustc-link-search=native={folder}");
    println!("cargo:rustc-link-lib=static=rounds");
}
