//! The comparison as a command: same inputs to ours, to the model and to the customer's Rust.
//!
//! `compare` with no words runs the documented default. Words:
//!
//! * `--frames N`, `--split N`, `--alone N`: random frames, frames of geometries that the Rust cannot
//!   express, tables and readings by themselves; `--no-small`: without the exhaustive small end;
//!   `--largest`: with the largest plane (some gigabytes of memory);
//! * `--seed N`; `--case N`: only that random frame of the seed, shown;
//! * `--spoil sample|place|word|left`, `--spoil-at N`: spoils the N-th suitable outcome of our side;
//! * `--leave-out 2|3|8|bounds|size`: in the count of two checks that never fire, what this check alone
//!   refuses counts as passed;
//! * `--findings`: what differs outside document 01's domain, with the inputs.
//!
//! Exit status 1 when a difference is found inside the domain, and when there was nothing to spoil or
//! to leave out.
#![forbid(unsafe_code)]

mod findings;

use compare::frame_check::Comparison;
use compare::never::Check;
use compare::our_side::{Ours, Spoil, SpoilKind};
use compare::run::{self, Plan};
use compare::rust_side;
use magicyuv_host::{backing, Backing};
use std::process::ExitCode;

/// The documented default.
const DEFAULT: Plan = Plan {
    seed: 1,
    frames: 200_000,
    split: 10_000,
    alone: 40_000,
    small: true,
    largest: false,
    spoil: None,
    leave_out: None,
};

enum Command {
    Run(Plan),
    Case(u64, u64),
    Findings,
}

fn number(word: Option<String>) -> Result<u64, String> {
    let word = word.ok_or("a number is missing")?;
    word.parse().map_err(|_| format!("{word} is no number"))
}

fn spoil_kind(word: Option<String>) -> Result<SpoilKind, String> {
    match word.as_deref() {
        Some("sample") => Ok(SpoilKind::Sample),
        Some("place") => Ok(SpoilKind::Place),
        Some("word") => Ok(SpoilKind::Word),
        Some("left") => Ok(SpoilKind::Left),
        _ => Err("--spoil takes sample, place, word or left".into()),
    }
}

fn check(word: Option<String>) -> Result<Check, String> {
    let named = |check: &Check| Some(check.word()) == word.as_deref();
    let check = Check::ALL.into_iter().find(named);
    check.ok_or("--leave-out takes 2, 3, 8, bounds or size".into())
}

fn command(mut words: impl Iterator<Item = String>) -> Result<Command, String> {
    let mut plan = DEFAULT;
    let (mut kind, mut at, mut case) = (None, 1_000, None);
    while let Some(word) = words.next() {
        match word.as_str() {
            "--frames" => plan.frames = number(words.next())?,
            "--split" => plan.split = number(words.next())?,
            "--alone" => plan.alone = number(words.next())?,
            "--seed" => plan.seed = number(words.next())?,
            "--no-small" => plan.small = false,
            "--largest" => plan.largest = true,
            "--spoil" => kind = Some(spoil_kind(words.next())?),
            "--spoil-at" => at = number(words.next())?,
            "--leave-out" => plan.leave_out = Some(check(words.next())?),
            "--case" => case = Some(number(words.next())?),
            "--findings" => return Ok(Command::Findings),
            other => return Err(format!("{other} is no word of this command")),
        }
    }
    plan.spoil = kind.map(|kind| Spoil { kind, at });
    Ok(case.map_or(Command::Run(plan), |case| Command::Case(plan.seed, case)))
}

fn say_what_is_compared() {
    match backing() {
        Backing::Archive => println!("comparing the archive, the model and the customer's Rust"),
        Backing::Model => println!(
            "BUILT WITHOUT AN ARCHIVE: comparing the model of document 01 with the customer's Rust"
        ),
    }
}

fn run_plan(plan: &Plan) -> ExitCode {
    println!("{plan:?}");
    let (comparison, found) = run::run(plan);
    print!("{}", comparison.tally.report());
    if let Some(suited) = comparison.ours.nothing_spoiled() {
        println!("NOTHING WAS SPOILED: {suited} inputs suit, and --spoil-at asks for a later one");
        return ExitCode::FAILURE;
    }
    if let Some(suited) = comparison.tally.never.nothing_left_out(plan.leave_out) {
        println!("NOTHING WAS LEFT OUT: {suited} frames or slices suit, and none of them fires");
        return ExitCode::FAILURE;
    }
    if found.count == 0 {
        println!("differences inside the domain: 0");
        return ExitCode::SUCCESS;
    }
    print!("{}", found.report());
    ExitCode::FAILURE
}

fn show_case(seed: u64, case: u64) -> ExitCode {
    let bytes = run::random_frame(seed, case);
    println!("{}", run::hex(&bytes));
    println!("the Rust: {}", rust_side::error_text(&bytes));
    match Comparison::new(Ours::new(None)).frame(&bytes, seed ^ case) {
        Ok(()) => ExitCode::SUCCESS,
        Err(message) => {
            println!("{message}");
            ExitCode::FAILURE
        }
    }
}

fn main() -> ExitCode {
    say_what_is_compared();
    match command(std::env::args().skip(1)) {
        Ok(Command::Run(plan)) => run_plan(&plan),
        Ok(Command::Case(seed, case)) => show_case(seed, case),
        Ok(Command::Findings) => findings::print_all(),
        Err(message) => {
            println!("{message}");
            ExitCode::FAILURE
        }
    }
}
