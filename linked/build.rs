//! Links the static library that `./library` writes.

use std::path::Path;

fn main() {
    let folder = Path::new(env!("CARGO_MANIFEST_DIR")).join("../target/lib");
    println!("cargo:rustc-link-search=native={}", folder.display());
    println!("cargo:rustc-link-lib=static=campaign");
    println!("cargo:rerun-if-changed={}", folder.join("libcampaign.a").display());
}
