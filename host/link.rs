//! For build scripts: has `host/archive` write the static library of a Rattle crate, and links a copy of it.
use std::path::Path;
use std::process::Command;

/// Links the static library `library`, which `host/archive` writes of the Rattle crate `name`. The copy outlives the library, which the next `host/archive` writes anew.
pub fn archive(name: &str, library: &str) {
    let host = Path::new(env!("CARGO_MANIFEST_DIR")).join("..");
    let status = Command::new(host.join("archive")).arg(name).status();
    assert!(
        status.is_ok_and(|s| s.success()),
        "`host/archive {name}` wrote no library"
    );
    let out = std::env::var("OUT_DIR").expect("cargo names the folder of a build script");
    let file = format!("lib{library}.a");
    std::fs::copy(
        host.join("../target/native").join(&file),
        Path::new(&out).join(&file),
    )
    .expect("the library can be copied");
    for source in ["archive", "../crates.txt"] {
        println!("cargo:rerun-if-changed={}", host.join(source).display());
    }
    // The kit's own folder in a crate changes with each check.
    let crates = std::fs::read_dir(host.join("../crates")).expect("the folder of crates");
    for folder in crates {
        let folder = folder.expect("a crate").path();
        for part in ["src", "specs", "proofs"].map(|part| folder.join(part)) {
            if part.exists() {
                println!("cargo:rerun-if-changed={}", part.display());
            }
        }
    }
    println!("cargo:rustc-link-search=native={out}");
    println!("cargo:rustc-link-lib=static={library}");
}
