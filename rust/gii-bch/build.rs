//! Links the archive that GII_ARCHIVE names (a path from rust/), or crates/gii_bch/out/libgii_bch.a of the repository.

use std::path::Path;

fn main() {
    println!("cargo:rerun-if-env-changed=GII_ARCHIVE");
    let given = std::env::var("GII_ARCHIVE").unwrap_or("../crates/gii_bch/out/libgii_bch.a".to_string());
    let workspace = Path::new(env!("CARGO_MANIFEST_DIR")).parent().unwrap();
    let archive = workspace.join(given);
    println!("cargo:rerun-if-changed={}", archive.display());
    let Ok(archive) = archive.canonicalize() else {
        panic!("no archive at {}: build it (rt lib in crates/gii_bch) or set GII_ARCHIVE", archive.display());
    };
    let name = archive.file_name().unwrap().to_str().unwrap();
    println!("cargo:rustc-link-search=native={}", archive.parent().unwrap().display());
    println!("cargo:rustc-link-lib=static:+verbatim={name}");
}
