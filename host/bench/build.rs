//! Hands the compiler's own words about itself, and the profile, to the program, which prints them.

use std::env;
use std::process::Command;

fn main() {
    println!("cargo:rerun-if-changed=build.rs");
    let rustc = env::var("RUSTC").unwrap_or_else(|_| "rustc".into());
    let said = Command::new(rustc).arg("--version").output().map(|out| out.stdout);
    let version = String::from_utf8(said.unwrap_or_default()).unwrap_or_default();
    println!("cargo:rustc-env=BENCH_RUSTC={}", version.trim());
    let word = |name: &str| env::var(name).unwrap_or_default();
    println!("cargo:rustc-env=BENCH_PROFILE={}, opt-level {}", word("PROFILE"), word("OPT_LEVEL"));
}
