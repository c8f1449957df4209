//! Times ours against a plain Rust program and against the customer's Rust, on the same frames, in
//! one thread, all built for release. docs/SPEED.md has the method and the figures.
//!
//! ```text
//! bench                 the frames of pictures.rs: a table
//! bench --stages        where the time of ours and of the plain program goes
//! bench --growth        over sizes, slices and words; the most slices; refusals
//! bench --counts        instructions a sample, counted by callgrind, as lines
//! bench --all           all of it, as lines that tools/speed.py reads
//! bench --once FRAME WIDTH HEIGHT SLICE-HEIGHT        ours alone, once, and no clock
//! bench --once-plain FRAME WIDTH HEIGHT SLICE-HEIGHT  the plain program alone
//! bench --once-rust FRAME WIDTH HEIGHT SLICE-HEIGHT   the customer's Rust alone
//! ```
//!
//! `--runs N` changes how often each side is run. `--spoil` changes one sample of ours before the
//! three sides are compared, `--spoil-word` a workspace word, `--spoil-left` a sample that a refusal
//! leaves. A difference ends it with status 1.
#![forbid(unsafe_code)]

mod counts;
mod growth;
mod lent;
mod measure;
mod pictures;
mod report;
mod sides;
mod stages;

use lent::{Input, Memory};
use magicyuv_host::{backing, Answer, Backing};
use pictures::{frame, Size, FRAMES, TIMED};
use report::Row;
use sides::Spoil;
use std::process::ExitCode;

/// How the clock is used.
pub struct Options {
    /// Runs of each side, enough that some of them meet a quiet moment of a busy machine.
    pub runs: usize,
    /// What of ours is changed before the sides are compared.
    pub spoil: Spoil,
}

/// The frames of the first table, each as soon as it is measured.
fn frames(options: &Options, sink: growth::Sink) -> Result<(), String> {
    for (at, kind) in FRAMES.iter().enumerate() {
        let input = Input::of(&frame(kind, &TIMED));
        let row = Row::new("frame", kind.name(), at, &input);
        sink(growth::sound(row, &input, options.runs, options.spoil)?);
    }
    Ok(())
}

/// The processor, how many of them, and how busy the machine is, as far as the system says it.
fn machine() -> String {
    let read = |file: &str| std::fs::read_to_string(file).unwrap_or_default();
    let info = read("/proc/cpuinfo");
    let name = info.lines().find_map(|l| l.strip_prefix("model name")).unwrap_or(": unknown");
    let count = std::thread::available_parallelism().map_or(0, |n| n.get());
    format!("{}, {count} cores, load {}", name.trim_start_matches([' ', '\t', ':']), load())
}

fn load() -> String {
    let load = std::fs::read_to_string("/proc/loadavg").unwrap_or_default();
    load.split(' ').next().unwrap_or("unknown").to_string()
}

/// What the figures are of, one line each.
fn head(options: &Options) {
    let ours = match backing() {
        Backing::Archive => "the archive",
        Backing::Model => "THE SLOW MODEL: built without an archive",
    };
    let Size { width, height, slice } = TIMED;
    println!("head\tours\t{ours}");
    println!("head\tmachine\t{} at the start", machine());
    println!("head\tcompiler\t{}; {}", env!("BENCH_RUSTC"), env!("BENCH_PROFILE"));
    println!("head\tsize\t{width} by {height}, slice height {slice}");
    println!("head\truns\t{}", options.runs);
}

/// A table's rows, by whatever measures them.
fn table(measure: impl FnOnce(growth::Sink) -> Result<(), String>) -> Result<(), String> {
    let mut rows = Vec::new();
    measure(&mut |row| rows.push(row))?;
    report::table(&rows);
    Ok(())
}

fn all(options: &Options) -> Result<(), String> {
    frames(options, &mut |row| row.lines())?;
    stages::all(options, &mut |staged| staged.lines())?;
    growth::all(options, &mut |row| row.lines())?;
    if let Err(what) = counts::all(&mut |counted| counted.lines()) {
        println!("head\tcounts\tnone: {what}");
    }
    println!("head\tend\tload {} at the end", load());
    Ok(())
}

/// Decodes one of the first four frames once, at a size, with one side alone: for a tool that counts
/// the instructions of `magicyuv_decode8`, `magicyuv_decode16`, `plain_side` or `rust_side`.
fn once(numbers: &[String], side: fn(&Input)) -> Result<(), String> {
    let numbers: Option<Vec<u32>> = numbers.iter().map(|word| word.parse().ok()).collect();
    let Some([at @ 0..4, width, height, slice]) = numbers.as_deref() else {
        return Err("a frame from 0 to 3, a width, a height and a slice height".into());
    };
    let kind = &FRAMES[*at as usize];
    let draft = frame(kind, &Size { width: *width, height: *height, slice: *slice });
    let input = Input::of(&draft);
    side(&input);
    let (samples, slices) = (draft.geometry.samples(), draft.slices.len());
    println!("{}, once: {samples} samples in {slices} slices", kind.name());
    Ok(())
}

/// One call of ours or of the plain program.
fn alone(input: &Input, side: fn(&Input, &mut Memory) -> Answer) {
    assert_eq!(side(input, &mut Memory::noisy(input, 1)), Answer::Planes);
}

/// `--runs` and the spoilings taken out of the words.
fn options(words: &mut Vec<String>) -> Result<Options, String> {
    let runs = match words.iter().position(|word| word == "--runs") {
        None => 51,
        Some(at) => {
            let number = words.get(at + 1).and_then(|word| word.parse().ok()).filter(|n| *n > 0);
            words.drain(at..words.len().min(at + 2));
            number.ok_or("--runs and a number above 0")?
        }
    };
    let mut spoil = Spoil::Nothing;
    let spoils =
        [("--spoil", Spoil::Sample), ("--spoil-word", Spoil::Word), ("--spoil-left", Spoil::Left)];
    for (name, kind) in spoils {
        if let Some(at) = words.iter().position(|word| word == name) {
            words.remove(at);
            spoil = kind;
        }
    }
    Ok(Options { runs: if backing() == Backing::Model { runs.min(3) } else { runs }, spoil })
}

fn run(mut words: Vec<String>) -> Result<(), String> {
    let options = options(&mut words)?;
    let (mode, numbers) = match words.split_first() {
        None => ("", &[][..]),
        Some((mode, numbers)) => (mode.as_str(), numbers),
    };
    match (mode, numbers) {
        ("--once", _) => return once(numbers, |input| alone(input, sides::ours)),
        ("--once-plain", _) => return once(numbers, |input| alone(input, sides::plain_side)),
        ("--once-rust", _) => return once(numbers, sides::rust_once),
        ("--counts", []) => return counts::all(&mut |counted| counted.lines()),
        ("" | "--stages" | "--growth" | "--all", []) => head(&options),
        _ => return Err("words that it does not know; host/bench/src/main.rs has them".into()),
    }
    match mode {
        "--stages" => {
            stages::heading();
            stages::all(&options, &mut |staged| staged.row())
        }
        "--growth" => table(|sink| growth::all(&options, sink)),
        "--all" => all(&options),
        _ => table(|sink| frames(&options, sink)),
    }
}

fn main() -> ExitCode {
    match run(std::env::args().skip(1).collect()) {
        Ok(()) => ExitCode::SUCCESS,
        Err(what) => {
            eprintln!("bench: {what}");
            ExitCode::FAILURE
        }
    }
}
