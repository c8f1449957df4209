//! Instructions a sample, counted by valgrind's callgrind: what other work on the machine cannot
//! change. The program runs itself under it with `--once`, one side at a time, on a small frame, and
//! only the side's own call is counted.

use crate::pictures::{frame, Size, FRAMES};
use crate::sides::NAMES;
use std::collections::BTreeMap;
use std::path::Path;
use std::process::Command;

/// The frames counted: the first four of `FRAMES`, which `--once` knows.
const FRAMES_COUNTED: usize = 4;

/// Small, since callgrind takes some fifty times as long.
const COUNTED: Size = Size { width: 320, height: 180, slice: 18 };

/// The word that has one side decode once, and the functions whose calls are counted.
const CALLS: [(&str, &[&str]); 3] = [
    ("--once", &["magicyuv_decode8", "magicyuv_decode16"]),
    ("--once-plain", &["bench::sides::plain_side*"]),
    ("--once-rust", &["bench::sides::rust_side*"]),
];

/// A function with less than this share of all instructions is not named.
const SHARE: f64 = 0.01;

/// Instructions a sample of one frame on one side.
pub struct Counted {
    name: String,
    side: &'static str,
    /// The whole call, then its functions, most first.
    functions: Vec<(String, f64)>,
}

impl Counted {
    /// One line a function: keyword, frame, side, function, instructions a sample.
    pub fn lines(&self) {
        for (function, count) in &self.functions {
            println!("count\t{}\t{}\t{function}\t{count:.2}", self.name, self.side);
        }
    }
}

/// Every counted frame on every side.
pub fn all(sink: &mut dyn FnMut(Counted)) -> Result<(), String> {
    for (at, kind) in FRAMES.iter().enumerate().take(FRAMES_COUNTED) {
        let samples = frame(kind, &COUNTED).geometry.samples() as f64;
        for (side, (word, calls)) in NAMES.iter().zip(CALLS) {
            let counts = functions(&run(at, word, calls)?);
            let all: u64 = counts.values().sum();
            let mut functions = vec![("all".to_string(), all as f64 / samples)];
            let mut named: Vec<(&String, &u64)> = counts.iter().collect();
            named.sort_by_key(|(_, count)| u64::MAX - **count);
            let large = named.iter().filter(|(_, count)| **count as f64 > SHARE * all as f64);
            functions.extend(large.map(|(name, n)| (short(name), **n as f64 / samples)));
            sink(Counted { name: kind.name(), side, functions });
        }
    }
    Ok(())
}

/// What callgrind writes of one decoding.
fn run(at: usize, word: &str, calls: &[&str]) -> Result<String, String> {
    let program = std::env::current_exe().map_err(|e| e.to_string())?;
    let file = std::env::temp_dir().join(format!("bench-callgrind-{}", std::process::id()));
    let mut valgrind = Command::new("valgrind");
    valgrind.args(["--quiet", "--tool=callgrind", "--compress-strings=no", "--compress-pos=no"]);
    valgrind.arg(format!("--callgrind-out-file={}", file.display()));
    valgrind.args(calls.iter().map(|call| format!("--toggle-collect={call}")));
    valgrind.arg(program).arg(word).arg(at.to_string());
    let Size { width, height, slice } = COUNTED;
    valgrind.args([width, height, slice].map(|n| n.to_string()));
    let ran = valgrind.output().map_err(|e| format!("valgrind: {e}"))?;
    if !ran.status.success() {
        return Err(format!("valgrind: {}", String::from_utf8_lossy(&ran.stderr)));
    }
    taken(&file)
}

/// The file's text; the file goes.
fn taken(file: &Path) -> Result<String, String> {
    let text = std::fs::read_to_string(file).map_err(|e| e.to_string())?;
    std::fs::remove_file(file).map_err(|e| e.to_string())?;
    Ok(text)
}

/// Each function's own instructions. A line of two numbers is a place and a count, and belongs to the
/// function named last; after a line `calls=` it counts the function called, which has its own lines.
fn functions(text: &str) -> BTreeMap<String, u64> {
    let mut counts = BTreeMap::new();
    let (mut function, mut called) = (String::new(), false);
    for line in text.lines() {
        if let Some(name) = line.strip_prefix("fn=") {
            function = name.to_string();
        } else if line.starts_with("calls=") {
            called = true;
        } else if let Some((_, count)) = cost(line) {
            let own = if std::mem::take(&mut called) { 0 } else { count };
            *counts.entry(function.clone()).or_insert(0) += own;
        }
    }
    counts
}

fn cost(line: &str) -> Option<(u64, u64)> {
    let (place, count) = line.split_once(' ')?;
    Some((place.parse().ok()?, count.parse().ok()?))
}

/// A function's name without what generics add, with its trait in place of a trait's implementation,
/// and memory functions by their plain name.
fn short(name: &str) -> String {
    if let Some(plain) = ["memset", "memcpy", "memmove"].into_iter().find(|m| name.contains(m)) {
        return plain.into();
    }
    match name.split_once(" as ") {
        Some((_, of_trait)) => of_trait.replace(['<', '>'], ""),
        None => name.split('<').next().unwrap_or(name).trim_end_matches("::").into(),
    }
}
