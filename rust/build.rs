//! Where the library is: the repository's target folder, or where STATICLIB says.

use std::path::Path;

fn main() {
    println!("cargo::rerun-if-env-changed=STATICLIB");
    let folder = std::env::var("STATICLIB").unwrap_or_else(|_| {
        let here = std::env::var("CARGO_MANIFEST_DIR").expect("cargo sets it");
        format!("{here}/../target/staticlib")
    });
    let library = Path::new(&folder).join("libwerdutxa.a");
    println!("cargo::rerun-if-changed={}", library.display());
    assert!(
        library.exists(),
        "{} is not there: run `tools/staticlib` in the repository's root, or set STATICLIB to the archive's folder",
        library.display()
    );
    println!("cargo::rustc-link-search=native={folder}");
    println!("cargo::rustc-link-lib=static=werdutxa");
}
