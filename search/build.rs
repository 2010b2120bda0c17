//! Links the static library, which tools/library leaves under the repository's target folder.

use std::{env, path::Path};

fn main() {
    println!("cargo:rerun-if-changed=build.rs");
    if env::var_os("CARGO_FEATURE_STANDIN").is_some() {
        return;
    }
    let root = env::var("CARGO_MANIFEST_DIR").unwrap();
    let folder = Path::new(&root).join("../target/staticlib");
    println!("cargo:rerun-if-changed={}", folder.join("libvishalneq.a").display());
    println!("cargo:rustc-link-search=native={}", folder.display());
    println!("cargo:rustc-link-lib=static=vishalneq");
}
