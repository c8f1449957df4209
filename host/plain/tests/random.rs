//! The plain decoder against the model, on random frames of the comparison's generator: the same
//! answer, the same samples and the same workspace words left, on memory that held noise before. It
//! demands that every answer and everything that a frame can be made of was reached.
//!
//! Seen red: `python3 red/plain.py` puts the slips of red/plain-slips/ in, one at a time, and sees each
//! reported here.

use compare::draft::{self, Draft};
use compare::frame_check::{entry_of, outside_rules};
use compare::made_of::made_of;
use compare::our_side::Lent;
use compare::rng::Rng;
use compare::{split_check, twist};
use magicyuv_host::container;
use magicyuv_host::descriptors::{self, Lengths};
use magicyuv_host::formats::FORMATS;
use magicyuv_host::model::{needs, Entry, Model};
use magicyuv_host::{Answer, Core, Geometry};
use std::collections::{BTreeMap, BTreeSet};

const SEED: u64 = 46;

/// Random frames of the formats, and of geometries that no format has.
const FRAMES: u64 = 20_000;
const SPLIT: u64 = 2_000;

/// More than a frame of the generator has; only a damaged header says more.
const MOST_SAMPLES: usize = 1 << 20;

/// What a call answers and leaves.
#[derive(Debug, PartialEq)]
struct Left {
    answer: Answer,
    samples: Vec<u16>,
    words: Vec<u32>,
}

/// Noise by a seed, or its complement: no element can hold its expected value in both.
fn noise(seed: u64, flip: u32, count: usize) -> impl Iterator<Item = u32> {
    let mut rng = Rng::of(seed, count as u64);
    (0..count).map(move |_| rng.next() as u32 ^ flip)
}

/// Calls both decoders on the same noise: the plain one's outcome, then the model's.
fn both(lent: &Lent, seed: u64, flip: u32) -> [Left; 2] {
    let Lent { frame, lengths, numbers, .. } = lent;
    let workspace: Vec<u32> = noise(seed, flip, lent.words).collect();
    let found = noise(!seed, flip, lent.samples);
    let mut words = [workspace.clone(), workspace];
    let [first, second] = &mut words;
    let (answers, samples) = match lent.entry {
        Entry::Eight => {
            let found: Vec<u8> = found.map(|n| n as u8).collect();
            let (mut one, mut two) = (found.clone(), found);
            let plain = plain::decode8(frame, lengths, &mut one, first, numbers);
            let model = Model.decode8(frame, lengths, &mut two, second, numbers);
            let wide = |bytes: Vec<u8>| bytes.into_iter().map(u16::from).collect();
            ([plain, model], [wide(one), wide(two)])
        }
        Entry::Sixteen => {
            let found: Vec<u16> = found.map(|n| n as u16).collect();
            let (mut one, mut two) = (found.clone(), found);
            let plain = plain::decode16(frame, lengths, &mut one, first, numbers);
            let model = Model.decode16(frame, lengths, &mut two, second, numbers);
            ([plain, model], [one, two])
        }
    };
    let ([one, two], [these, those], [first, second]) = (answers, samples, words);
    [
        Left { answer: one, samples: these, words: first },
        Left { answer: two, samples: those, words: second },
    ]
}

/// Fails at the first element that differs, and says which.
fn same<T: PartialEq + std::fmt::Debug>(what: &str, ours: &[T], model: &[T], case: &str) {
    let differs = ours.iter().zip(model).position(|(a, b)| a != b);
    if let Some(i) = differs {
        panic!("{case}: {what} {i} is {:?}, the model's {:?}", ours[i], model[i]);
    }
}

/// Both must answer and leave the same, on noise and on its complement.
fn agree(lent: &Lent, seed: u64, case: &str) -> Answer {
    let [answer, _] = [0, u32::MAX].map(|flip| {
        let [ours, model] = both(lent, seed, flip);
        assert_eq!(ours.answer, model.answer, "{case}: the answer, and the model's");
        let after = format!("{case}, {}", ours.answer);
        same("sample", &ours.samples, &model.samples, &after);
        same("workspace word", &ours.words, &model.words, &after);
        ours.answer
    });
    answer
}

/// The counts: what was reached.
#[derive(Default)]
struct Reached {
    /// By answer: 0 for planes, else the refusal's number.
    numbers: [u64; 16],
    /// Accepted frames by family, factors and depth.
    formats: BTreeMap<String, u64>,
    /// What accepted frames were made of.
    made_of: BTreeSet<String>,
}

fn format_name(g: &Geometry) -> String {
    format!("{:?} {}x{} depth {}", g.family, g.sx, g.sy, g.depth)
}

impl Reached {
    /// Gives one frame to both, then once more with something else lent.
    fn frame(&mut self, bytes: &[u8], lengths: &[u8], geometry: &Geometry, seed: u64, case: &str) {
        let mut rng = Rng::of(seed, 7);
        let within = geometry.within_caps() && geometry.samples() <= MOST_SAMPLES;
        let need = needs(lengths, geometry.depth).unwrap_or(rng.below(6));
        let lent = Lent {
            entry: entry_of(geometry.depth),
            frame: bytes,
            lengths,
            samples: if within { geometry.samples() } else { 3 },
            words: need + rng.pick(&[0, 0, 0, 1, 5]),
            numbers: geometry.numbers(),
        };
        let answer = agree(&lent, seed, case);
        self.numbers[answer.number() as usize] += 1;
        if answer == Answer::Planes {
            *self.formats.entry(format_name(geometry)).or_default() += 1;
            self.made_of.extend(made_of(&lent, geometry));
        }
        self.lent_otherwise(lent, need, &mut rng, case);
    }

    /// A size one short or one over, a workspace one short, the wrong entry, numbers outside the rules.
    fn lent_otherwise(&mut self, whole: Lent, need: usize, rng: &mut Rng, case: &str) {
        let longer = [whole.lengths, &[0]].concat();
        let mut lent = whole;
        match rng.below(8) {
            0 => lent.samples = lent.samples.saturating_sub(1),
            1 => lent.samples += 1,
            2 => lent.lengths = &lent.lengths[1..],
            3 => lent.lengths = &longer,
            4 => lent.words = need.saturating_sub(1),
            5 => lent.words = 0,
            6 => lent.entry = if lent.numbers.depth == 8 { Entry::Sixteen } else { Entry::Eight },
            _ => outside_rules(rng, &mut lent.numbers),
        }
        let answer = agree(&lent, rng.next(), &format!("{case}, lent otherwise"));
        self.numbers[answer.number() as usize] += 1;
    }
}

/// The geometry that a frame's own header says, where it still says one, and the lengths of its own
/// descriptors, where they can still be read.
fn header_and_lengths(draft: &Draft, bytes: &[u8]) -> (Geometry, Vec<u8>) {
    let geometry = container::parse(bytes).map_or(draft.geometry, |header| header.geometry);
    if !geometry.within_caps() {
        return (geometry, draft.lengths.concat());
    }
    let lengths = match descriptors::of_frame(bytes, &geometry, u8::MAX) {
        Lengths::Read(lengths) => lengths,
        _ if geometry.length_bytes() == draft.geometry.length_bytes() => draft.lengths.concat(),
        _ => vec![0; geometry.length_bytes()],
    };
    (geometry, lengths)
}

/// One frame of a format, whole or damaged in one or two ways.
fn random_frame(reached: &mut Reached, case: u64) {
    let mut rng = Rng::of(SEED, case);
    let draft = draft::random(&mut rng, 60);
    let mut bytes = draft.bytes();
    for _ in 0..rng.pick(&[0, 0, 0, 1, 1, 2]) {
        // A second damage counts from the end of the first entry.
        if bytes.len() >= 36 {
            twist::once(&mut rng, &mut bytes, &draft.geometry);
        }
    }
    let (geometry, lengths) = header_and_lengths(&draft, &bytes);
    reached.frame(&bytes, &lengths, &geometry, SEED ^ case, &format!("frame {case}"));
}

#[test]
fn random_frames_are_decoded_as_by_the_model_and_reach_everything() {
    let mut reached = Reached::default();
    for case in 0..FRAMES {
        random_frame(&mut reached, case);
    }
    for case in 0..SPLIT {
        let draft = split_check::random(SEED, case);
        let (bytes, lengths) = (draft.bytes(), draft.lengths.concat());
        reached.frame(&bytes, &lengths, &draft.geometry, case, &format!("split frame {case}"));
    }
    for (number, count) in reached.numbers.iter().enumerate() {
        assert!(*count >= 20, "number {number} was reached {count} times");
    }
    let named = |f: &magicyuv_host::formats::Format| {
        let numbers = Geometry::plain(f.family, 2, 2, 2, f.depth);
        format_name(&Geometry { sx: f.sx, sy: f.sy, ..numbers })
    };
    for name in FORMATS.iter().map(named) {
        assert!(reached.formats.contains_key(&name), "{name} was not accepted once");
    }
    assert_eq!(reached.formats.len(), FORMATS.len() + 4 * 4, "{:?}", reached.formats.keys());
    for name in everything() {
        assert!(reached.made_of.contains(&name), "{name}: not in any accepted frame");
    }
}

/// Every predictor, raw and coded, progressive and in two fields, at every depth; every longest word
/// that there is; and the corners of the layout.
fn everything() -> Vec<String> {
    let mut names: Vec<String> =
        (0..=18).map(|m| format!("a code with longest word {m:>2}")).collect();
    for (predictor, depth) in (1..=3).flat_map(|p| [8, 10, 12, 14].map(|d| (p, d))) {
        for mode in ["raw", "coded"] {
            let of = |fields| format!("predictor {predictor} {mode} depth {depth} {fields}");
            names.extend([of("progressive"), of("two fields")]);
        }
    }
    let corners = [
        "a payload that runs past its end",
        "slices not plane by plane",
        "a cut last band",
        "a one-column plane",
        "a one-row plane",
        "a slice height above the height",
    ];
    names.extend(corners.map(String::from));
    names
}
