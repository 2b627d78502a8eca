//! Links the project's static library, which `rt lib` makes in crates/console.

use std::path::Path;

fn main() {
    let folder = Path::new(env!("CARGO_MANIFEST_DIR")).join("../crates/console/out");
    let library = folder.join("libconsole.a");
    println!("cargo::rerun-if-changed={}", library.display());
    if !library.exists() {
        println!(
            "cargo::error=crates/console/out/libconsole.a is missing: \
             run `rt lib` in crates/console first"
        );
    }
    println!("cargo::rustc-link-search=native={}", folder.display());
    println!("cargo::rustc-link-lib=static=console");
}
