//! Chooses the cases: accepted frames of every format and of the geometries that the Rust cannot
//! express, and each refusal over the families, all small. Answers are the Rust's wherever it can be
//! asked, else document 01's by the model; each case says which.

use crate::form::{Case, Source};
use compare::domain::{standing, Standing};
use compare::frame_check::{entry_of, outside_rules};
use compare::rng::Rng;
use compare::run::random_frame;
use compare::rust_side::{self, Said};
use compare::split_check;
use magicyuv_host::model::{self, Entry};
use magicyuv_host::{Answer, Geometry};
use std::collections::BTreeMap;

/// The seed of the stored list.
pub const SEED: u64 = 2026;

/// Sizes that a case stays within, so that a small program can lend the memory.
const FRAME: usize = 700;
const ELEMENTS: usize = 400;
const WORDS: usize = 20_000;
const RUNS: usize = 120;

/// How many cases of each kind.
const OF_A_FORMAT: usize = 5;
const OF_A_REFUSAL_AND_FAMILY: usize = 3;
const OF_AN_ALIGNMENT: usize = 8;
const OF_THE_INEXPRESSIBLE: usize = 2;
const OF_THE_LENT: usize = 16;

fn small(case: &Case) -> bool {
    let runs = case.lengths.windows(2).filter(|w| w[0] != w[1]).count();
    case.frame.len() <= FRAME && case.elements <= ELEMENTS && case.words <= WORDS && runs <= RUNS
}

/// A case inside the domain, with the Rust's answer.
fn from_rust(frame: Vec<u8>) -> Option<(Geometry, Case)> {
    let said = rust_side::decode(&frame);
    let Standing::Inside(geometry, lengths) = standing(&frame, &said) else { return None };
    let mut case = by_document(&geometry, frame, lengths);
    match said {
        Said::Planes(samples) => {
            (case.answer, case.samples) = (Answer::Planes, samples);
            case.source = Source::Rust;
        }
        Said::Row { number, place, .. } => {
            let theirs = place.unwrap_or(case.answer.place());
            case.answer = Answer::Refused { number, place: theirs };
            case.samples = vec![];
            case.source = if place.is_some() { Source::Rust } else { Source::RustWithoutPlace };
        }
        _ => return None,
    }
    Some((geometry, case))
}

/// A case with document 01's answer, by the model.
fn by_document(geometry: &Geometry, frame: Vec<u8>, lengths: Vec<u8>) -> Case {
    let words = model::needs(&lengths, geometry.depth).unwrap_or(1);
    judged(Case {
        entry: entry_of(geometry.depth),
        numbers: geometry.numbers(),
        words,
        elements: geometry.samples(),
        answer: Answer::Planes,
        source: Source::Document,
        lengths,
        samples: vec![],
        frame,
    })
}

/// The case with the model's answer and picture.
fn judged(mut case: Case) -> Case {
    let picture = model::picture(
        case.entry,
        &case.frame,
        &case.lengths,
        case.elements,
        case.words,
        &case.numbers,
    );
    (case.answer, case.samples) = match picture {
        Ok(picture) => (Answer::Planes, picture),
        Err(refusal) => (refusal.into(), vec![]),
    };
    case
}

/// The same case with something else lent: numbers 1, 4 and 11.
fn lent_otherwise(mut case: Case, rng: &mut Rng) -> Case {
    match rng.below(6) {
        0 => outside_rules(rng, &mut case.numbers),
        1 => case.entry = if case.entry == Entry::Eight { Entry::Sixteen } else { Entry::Eight },
        2 => case.elements += 1,
        3 => drop(case.lengths.pop()),
        4 => case.words -= 1,
        _ => case.words = 0,
    }
    case.source = Source::Document;
    judged(case)
}

/// All cases.
pub fn choose() -> Vec<Case> {
    let mut taken: BTreeMap<(u32, String), usize> = BTreeMap::new();
    let mut out = Vec::new();
    for case in 0..60_000 {
        let Some((geometry, chosen)) = from_rust(random_frame(SEED, case)) else { continue };
        let (key, most) = kind_of(&geometry, &chosen);
        let count = taken.entry(key).or_default();
        if *count < most && small(&chosen) {
            *count += 1;
            out.push(chosen);
        }
    }
    out.extend(inexpressible());
    out.extend(lent(&out));
    out
}

/// What a case is counted under, and how many of that are wanted.
fn kind_of(geometry: &Geometry, case: &Case) -> ((u32, String), usize) {
    let g = geometry;
    match case.answer.number() {
        0 => ((0, format!("{:?} {} {} {}", g.family, g.sx, g.sy, g.depth)), OF_A_FORMAT),
        number @ (2 | 3) => ((number, String::new()), OF_AN_ALIGNMENT),
        number => ((number, format!("{:?}", g.family)), OF_A_REFUSAL_AND_FAMILY),
    }
}

/// Accepted and refused frames of the geometries that the Rust cannot express, some of each.
fn inexpressible() -> Vec<Case> {
    let mut taken: BTreeMap<(u32, String), usize> = BTreeMap::new();
    let mut out = Vec::new();
    for case in 0..1_000 {
        let draft = split_check::random(SEED, case);
        let chosen = by_document(&draft.geometry, draft.bytes(), draft.lengths.concat());
        let (key, _) = kind_of(&draft.geometry, &chosen);
        let count = taken.entry(key).or_default();
        if *count < OF_THE_INEXPRESSIBLE && small(&chosen) {
            *count += 1;
            out.push(chosen);
        }
    }
    out
}

/// Cases with something else lent, over accepted ones.
fn lent(accepted: &[Case]) -> Vec<Case> {
    let mut rng = Rng::of(SEED, 0);
    let sound: Vec<&Case> = accepted.iter().filter(|c| c.answer == Answer::Planes).collect();
    let mut counts = [0usize; 16];
    let mut out = Vec::new();
    for _ in 0..400 {
        let case = lent_otherwise(rng.pick(&sound).clone(), &mut rng);
        let count = &mut counts[case.answer.number() as usize];
        if *count < OF_THE_LENT && case.answer != Answer::Planes {
            *count += 1;
            out.push(case);
        }
    }
    out
}
