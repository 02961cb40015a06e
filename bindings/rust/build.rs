// Links the archive that `bindings/archive` writes: in target/staticlib of this repository, or in the
// folder that the environment variable MOSSBUCKLE_LIB names.
use std::path::Path;

fn main() {
    let folder = std::env::var("MOSSBUCKLE_LIB").unwrap_or_else(|_| {
        concat!(env!("CARGO_MANIFEST_DIR"), "/../../target/staticlib").to_string()
    });
    println!("cargo:rerun-if-env-changed=MOSSBUCKLE_LIB");
    println!("cargo:rerun-if-changed={folder}/libmossbuckle.a");
    if !Path::new(&folder).join("libmossbuckle.a").exists() {
        println!("cargo::error=libmossbuckle.a is not in {folder}: run `bindings/archive` at the repository's root, or name its folder in MOSSBUCKLE_LIB");
        return;
    }
    println!("cargo:rustc-link-search=native={folder}");
    println!("cargo:rustc-link-lib=static=mossbuckle");
}
