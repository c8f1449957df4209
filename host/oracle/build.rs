//! Builds the customer's Rust unchanged: copies its source files and our stand-in tables into cargo's
//! build folder, beside `modules.rs`, our own list of the modules that exist.
//!
//! The source is `../shared/docs/src` beside the repository, or the folder that MAGICYUV_SRC names.
//! Either the folder itself or its `src` holds the files.

use std::fs;
use std::path::{Path, PathBuf};

/// The files that the comparison needs. encoder.rs, registry.rs and the tables are not to be had.
const FILES: [&str; 7] = [
    "bitreader.rs",
    "decoder.rs",
    "error.rs",
    "header.rs",
    "huffman.rs",
    "predict.rs",
    "tables.rs",
];

/// Our stand-ins for the tables that the source reads at build time.
const TABLES: [&str; 2] = ["00-fourcc-table.csv", "01-predictor-table.csv"];

fn variable(name: &str) -> PathBuf {
    PathBuf::from(std::env::var_os(name).unwrap_or_default())
}

fn source_folder() -> PathBuf {
    let named = variable("MAGICYUV_SRC");
    let asked = if named.as_os_str().is_empty() {
        variable("CARGO_MANIFEST_DIR").join("../../../shared/docs/src")
    } else {
        named
    };
    let holds_files = |folder: &PathBuf| folder.join(FILES[0]).is_file();
    match [asked.join("src"), asked.clone()].into_iter().find(holds_files) {
        Some(folder) => folder,
        None => {
            eprintln!("the customer's Rust is not at {}.", asked.display());
            eprintln!("It is looked for in ../shared/docs/src from the repository's root; set");
            eprintln!(
                "MAGICYUV_SRC to the folder that holds it. The host crate alone builds without"
            );
            eprintln!("it: cargo build --release -p magicyuv-host");
            std::process::exit(1)
        }
    }
}

fn copy(from: &Path, to: &Path) {
    println!("cargo:rerun-if-changed={}", from.display());
    // Written anew, since the copy of a read-only file could not be overwritten the next time.
    let bytes = fs::read(from).unwrap_or_else(|e| panic!("{}: {e}", from.display()));
    fs::write(to, bytes).unwrap_or_else(|e| panic!("{}: {e}", to.display()));
}

fn main() {
    println!("cargo:rerun-if-changed=build.rs");
    println!("cargo:rerun-if-env-changed=MAGICYUV_SRC");
    let (here, out) = (variable("CARGO_MANIFEST_DIR"), variable("OUT_DIR"));
    for folder in ["src", "tables"] {
        fs::create_dir_all(out.join(folder)).expect("the build folder can be written");
    }
    let source = source_folder();
    for file in FILES {
        copy(&source.join(file), &out.join("src").join(file));
    }
    for table in TABLES {
        copy(&here.join("tables").join(table), &out.join("tables").join(table));
    }
    copy(&here.join("modules.rs"), &out.join("src/modules.rs"));
}
