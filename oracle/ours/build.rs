//! Where our library is: the repository's target folder, or where STATICLIB says. BEFORE says where an earlier one is, if a
//! benchmark is to compare the two.

use std::path::Path;
use std::process::Command;

const LIBRARY: &str = "libwerdutxa.a";

fn main() {
    println!("cargo::rerun-if-env-changed=STATICLIB");
    let folder = std::env::var("STATICLIB").unwrap_or_else(|_| {
        let ours = std::env::var("CARGO_MANIFEST_DIR").expect("cargo sets it");
        format!("{ours}/../../target/staticlib")
    });
    let library = Path::new(&folder).join(LIBRARY);
    sources::rerun_if_changed(&library);
    assert!(
        library.exists(),
        "{} is not there: run `tools/staticlib` in the repository's root",
        library.display()
    );
    println!("cargo::rustc-link-search=native={folder}");
    println!("cargo::rustc-link-lib=static=werdutxa");
    before();
}

/// Links the earlier library, whose Rewriting is called `before_rewrite` and whose other names are its own.
fn before() {
    println!("cargo::rustc-check-cfg=cfg(before)");
    println!("cargo::rerun-if-env-changed=BEFORE");
    let Ok(folder) = std::env::var("BEFORE") else {
        return;
    };
    let library = Path::new(&folder).join(LIBRARY);
    sources::rerun_if_changed(&library);
    let out = std::env::var("OUT_DIR").expect("cargo sets it");
    let renamed = Command::new("objcopy")
        .arg("--redefine-sym=werdutxa_rewrite=before_rewrite")
        .arg("--keep-global-symbol=before_rewrite")
        .arg(&library)
        .arg(Path::new(&out).join("libbefore.a"))
        .status();
    assert!(
        renamed.is_ok_and(|status| status.success()),
        "objcopy does not take {}",
        library.display()
    );
    println!("cargo::rustc-cfg=before");
    println!("cargo::rustc-link-search=native={out}");
    println!("cargo::rustc-link-lib=static=before");
}
