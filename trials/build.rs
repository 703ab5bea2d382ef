//! Links the proved archive of the repository: `tools/build` builds it.

use std::path::Path;

fn main() {
    let folder = Path::new(env!("CARGO_MANIFEST_DIR")).join("../crates/overlay/out");
    let archive = folder.join("liboverlay.a");
    assert!(
        archive.exists(),
        "{} is missing: run `tools/build` first",
        archive.display()
    );
    println!("cargo:rerun-if-changed={}", archive.display());
    println!("cargo:rustc-link-search=native={}", folder.display());
    println!("cargo:rustc-link-lib=static=overlay");
}
