//! Writes the stored list of cases that the gate replays, and checks such a list against the host's
//! backing.
//!
//! `replay-list FILE` writes the list and prints a line for each case; `replay-list --check FILE`
//! reads it back, decodes each case into memory that holds something else than the expected answer,
//! and prints the same lines. Exit status 1 when a case comes out wrong. The form is in form.rs.
#![forbid(unsafe_code)]

mod choose;
mod form;

use compare::our_side::Ours;
use form::{Case, Source};
use magicyuv_host::{backing, Answer};
use std::process::ExitCode;

/// Number, kind, place and the sum of samples.
fn line(index: usize, answer: &Answer, samples: &[u16]) -> String {
    let sum: u32 = samples.iter().map(|s| u32::from(*s)).sum();
    let place = answer.place();
    format!("{index} {} {} {} {sum}", answer.number(), place.kind(), place.index())
}

fn write(file: &str) -> Result<(), String> {
    let cases = choose::choose();
    let bytes = form::write(&cases);
    std::fs::write(file, &bytes).map_err(|e| format!("{file}: {e}"))?;
    for (index, case) in cases.iter().enumerate() {
        println!("{}", line(index, &case.answer, &case.samples));
    }
    eprintln!("{} cases, {} bytes, seed {}", cases.len(), bytes.len(), choose::SEED);
    eprint!("{}", counts(&cases));
    Ok(())
}

/// How many cases of each number, and how many from each source.
fn counts(cases: &[Case]) -> String {
    let of = |number: u32| cases.iter().filter(|c| c.answer.number() == number).count();
    let from = |source: Source| cases.iter().filter(|c| c.source == source).count();
    let numbers: String = (0..16).map(|n| format!("  number {n:>2}: {:>4}\n", of(n))).collect();
    let sources = [Source::Rust, Source::RustWithoutPlace, Source::Document].map(from);
    format!("{numbers}  all from the Rust, the place not, none: {sources:?}\n")
}

/// Decodes a case on noise and on its complement, so that one of the two differs from the expected
/// sample at each element before the call.
fn good(case: &Case) -> Result<(), String> {
    let mut ours = Ours::new(None);
    for flip in [false, true] {
        let outcome = ours.decode(&case.lent(), 3, flip);
        if outcome.answer != case.answer {
            return Err(format!("{}, and should be {}", outcome.answer, case.answer));
        }
        compare::left::frame(&outcome, Some(&case.samples))?;
    }
    Ok(())
}

fn check(file: &str) -> Result<(), String> {
    let bytes = std::fs::read(file).map_err(|e| format!("{file}: {e}"))?;
    let cases = form::read(&bytes).ok_or("the file is not of the list's form")?;
    let mut wrong = 0;
    for (index, case) in cases.iter().enumerate() {
        match good(case) {
            Ok(()) => println!("{}", line(index, &case.answer, &case.samples)),
            Err(message) => {
                wrong += 1;
                println!("{index} WRONG: {message}");
            }
        }
    }
    eprintln!("{} cases checked with the {:?}, {wrong} wrong", cases.len(), backing());
    if wrong == 0 {
        Ok(())
    } else {
        Err(format!("{wrong} cases are wrong"))
    }
}

fn main() -> ExitCode {
    let words: Vec<String> = std::env::args().skip(1).collect();
    let done = match words.iter().map(String::as_str).collect::<Vec<_>>()[..] {
        ["--check", file] => check(file),
        [file] => write(file),
        _ => Err("replay-list FILE, or replay-list --check FILE".into()),
    };
    match done {
        Ok(()) => ExitCode::SUCCESS,
        Err(message) => {
            eprintln!("{message}");
            ExitCode::FAILURE
        }
    }
}
