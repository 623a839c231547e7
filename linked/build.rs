//! Links the proved entry points, which `linked/library` builds for x86-64.

use std::path::Path;

fn main() {
    let library = Path::new(env!("CARGO_MANIFEST_DIR")).join("../target/staticlib");
    println!("cargo:rustc-link-search=native={}", library.display());
    println!("cargo:rustc-link-lib=static=yardstick");
    println!(
        "cargo:rerun-if-changed={}",
        library.join("libyardstick.a").display()
    );
}
