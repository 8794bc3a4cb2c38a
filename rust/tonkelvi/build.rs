//! Finds the engine's static library, libtonkelvi.a: in the folder that TONKELVI_LIB names, or else by tools/library.sh, which proves what
//! isn't proved yet, needs Rattle's kit and leaves it in crates/tonkelvi/out.
use std::path::{Path, PathBuf};
use std::process::Command;

fn main() {
    println!("cargo:rerun-if-env-changed=TONKELVI_LIB");
    let folder = match std::env::var_os("TONKELVI_LIB") {
        Some(folder) => given(PathBuf::from(folder)),
        None => build(),
    };
    let folder = folder.canonicalize().expect("the folder of libtonkelvi.a");
    println!("cargo:rustc-env=TONKELVI_FOLDER={}", folder.display());
    println!("cargo:rustc-link-search=native={}", folder.display());
    println!("cargo:rustc-link-lib=static=tonkelvi");
}

fn given(folder: PathBuf) -> PathBuf {
    println!("cargo:rerun-if-changed={}", folder.join("libtonkelvi.a").display());
    folder
}

/// Of what it makes it names nothing to cargo, which would then run it each time.
fn build() -> PathBuf {
    let root = Path::new(env!("CARGO_MANIFEST_DIR")).join("../..");
    println!("cargo:rerun-if-changed={}", root.join("crates.txt").display());
    for folder in std::fs::read_dir(root.join("crates")).expect("crates/") {
        let folder = folder.expect("a crate's folder").path();
        for part in ["src", "specs", "proofs"].map(|part| folder.join(part)) {
            if part.exists() {
                println!("cargo:rerun-if-changed={}", part.display());
            }
        }
    }
    match Command::new("sh").arg(root.join("tools/library.sh")).status() {
        Ok(status) if status.success() => root.join("crates/tonkelvi/out"),
        Ok(status) => panic!("tools/library.sh ended with {status}; TONKELVI_LIB may name the folder that holds libtonkelvi.a"),
        Err(error) => panic!("sh could not be run ({error}); TONKELVI_LIB may name the folder that holds libtonkelvi.a"),
    }
}
