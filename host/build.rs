//! Links the archive `libmagicyuv.a`, and stops where there is none.
//!
//! The archive comes from `tools/archive.sh` at the repository's root. Its place is
//! `../target/staticlib/libmagicyuv.a`, or the file that MAGICYUV_ARCHIVE names; the word `none`
//! there asks for the model even when an archive exists.

use std::path::{Path, PathBuf};

fn default_place() -> PathBuf {
    let here = std::env::var("CARGO_MANIFEST_DIR").expect("cargo names the package's folder");
    Path::new(&here).join("../target/staticlib/libmagicyuv.a")
}

/// Ends the build with a message and nothing around it.
fn stop(message: &str) -> ! {
    eprintln!("{message}");
    std::process::exit(1)
}

fn chosen() -> Option<PathBuf> {
    match std::env::var("MAGICYUV_ARCHIVE") {
        Ok(word) if word == "none" => None,
        Ok(word) if !word.is_empty() => {
            let place = PathBuf::from(&word);
            if !place.is_file() {
                stop(&format!("MAGICYUV_ARCHIVE names {word}, and there is no such file"));
            }
            Some(place)
        }
        _ => Some(default_place()),
    }
}

fn link(archive: &Path) {
    let folder = archive.parent().expect("a file has a folder");
    println!("cargo:rustc-link-search=native={}", folder.display());
    println!("cargo:rustc-link-lib=static=magicyuv");
    println!("cargo:rustc-cfg=archive");
}

fn main() {
    println!("cargo:rustc-check-cfg=cfg(archive)");
    println!("cargo:rerun-if-changed=build.rs");
    println!("cargo:rerun-if-env-changed=MAGICYUV_ARCHIVE");
    let Some(place) = chosen() else { return };
    println!("cargo:rerun-if-changed={}", place.display());
    // A host that quietly decoded with something else than the proved core would be the worst of answers.
    if !place.is_file() {
        stop(&format!(
            "no archive at {}: run `tools/archive.sh` at the repository's root, or set \
             MAGICYUV_ARCHIVE=none to try the programs on the model",
            place.display()
        ));
    }
    link(&place);
}
