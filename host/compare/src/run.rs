//! A whole run: random frames, random tables and readings, the small end; and the differences found.

use crate::codes;
use crate::draft;
use crate::frame_check::Comparison;
use crate::never::Check;
use crate::our_side::{Ours, Spoil};
use crate::rng::Rng;
use crate::shrink::shrink;
use crate::small;
use crate::split_check;
use crate::twist;
use magicyuv_host::model::words::Code;

/// How much to run.
#[derive(Clone, Copy, Debug)]
pub struct Plan {
    /// The seed.
    pub seed: u64,
    /// Random frames.
    pub frames: u64,
    /// Random frames of geometries that the Rust cannot express.
    pub split: u64,
    /// Random tables and readings.
    pub alone: u64,
    /// The small end too.
    pub small: bool,
    /// The largest plane too.
    pub largest: bool,
    /// What is spoiled on our side.
    pub spoil: Option<Spoil>,
    /// What the count of two checks that never fire leaves out.
    pub leave_out: Option<Check>,
}

/// One difference.
#[derive(Clone, Debug)]
pub struct Difference {
    /// What differs.
    pub message: String,
    /// The input.
    pub input: Input,
}

/// An input that differs.
#[derive(Clone, Debug)]
pub enum Input {
    /// A whole frame, and the seed of its noise.
    Frame(Vec<u8>, u64),
    /// Lengths, payload and n.
    Alone(Vec<u8>, Vec<u8>, usize),
}

impl Input {
    fn size(&self) -> usize {
        match self {
            Input::Frame(bytes, _) => bytes.len(),
            Input::Alone(lengths, payload, n) => lengths.len() + payload.len() + n,
        }
    }
}

/// All differences of a run: their count and the smallest.
#[derive(Clone, Debug, Default)]
pub struct Differences {
    /// How many.
    pub count: u64,
    /// The one with the smallest input.
    pub smallest: Option<Difference>,
}

impl Differences {
    fn add(&mut self, difference: Difference) {
        self.count += 1;
        let smaller = |old: &Difference| difference.input.size() < old.input.size();
        if self.smallest.as_ref().map_or(true, smaller) {
            self.smallest = Some(difference);
        }
    }

    /// Compares a frame and keeps what differs.
    pub fn frame(&mut self, c: &mut Comparison, bytes: &[u8], seed: u64) {
        if let Err(message) = c.frame(bytes, seed) {
            self.add(Difference { message, input: Input::Frame(bytes.to_vec(), seed) });
        }
    }

    /// Compares a frame whose geometry the Rust cannot express, and keeps what differs.
    pub fn split(&mut self, c: &mut Comparison, seed: u64, case: u64) {
        let draft = split_check::random(seed, case);
        if let Err(message) = c.split(&draft, seed ^ case) {
            let numbers = draft.geometry.numbers();
            let message = format!("{message}, with {numbers:?}");
            self.add(Difference { message, input: Input::Frame(draft.bytes(), seed ^ case) });
        }
    }

    /// Keeps what differs in a table or a reading by itself.
    pub fn alone(&mut self, lengths: &[u8], payload: &[u8], n: usize, outcome: Result<(), String>) {
        if let Err(message) = outcome {
            let input = Input::Alone(lengths.to_vec(), payload.to_vec(), n);
            self.add(Difference { message, input });
        }
    }

    /// The report of what was found; empty when nothing was.
    pub fn report(&self) -> String {
        let Some(difference) = &self.smallest else { return String::new() };
        let mut out = format!("DIFFERENCES: {}\nsmallest: {}\n", self.count, difference.message);
        match &difference.input {
            Input::Frame(bytes, seed) => out.push_str(&frame_report(bytes, *seed)),
            Input::Alone(lengths, payload, n) => out.push_str(&format!(
                "lengths {}\npayload {}\nn {n}\n",
                hex(lengths),
                hex(payload)
            )),
        }
        out
    }
}

/// The frame as it came, or smaller where a smaller one differs too.
fn frame_report(bytes: &[u8], seed: u64) -> String {
    let differs = |b: &[u8]| Comparison::new(Ours::new(None)).frame(b, seed).is_err();
    if !differs(bytes) {
        return format!("frame of {} bytes\n{}\n", bytes.len(), hex(bytes));
    }
    let small = shrink(bytes, differs);
    let message = Comparison::new(Ours::new(None)).frame(&small, seed).unwrap_err();
    format!("frame of {} bytes, made smaller: {message}\n{}\n", small.len(), hex(&small))
}

/// Bytes as hex.
pub fn hex(bytes: &[u8]) -> String {
    bytes.iter().map(|b| format!("{b:02x}")).collect()
}

/// The bytes of random frame `case` of a seed.
pub fn random_frame(seed: u64, case: u64) -> Vec<u8> {
    let mut rng = Rng::of(seed, case);
    let draft = draft::random(&mut rng, 60);
    let mut bytes = draft.bytes();
    let twists = rng.pick(&[0, 0, 0, 1, 1, 2]);
    for _ in 0..twists {
        if !bytes.is_empty() {
            twist::once(&mut rng, &mut bytes, &draft.geometry);
        }
    }
    bytes
}

/// Lengths, payload and n of random reading `case` of a seed.
pub fn random_reading(seed: u64, case: u64) -> (Vec<u8>, Vec<u8>, usize) {
    let mut rng = Rng::of(seed, !case);
    let n = match rng.below(40) {
        0 => 16_384,
        1 => 16_385,
        2 => rng.between(1_000, 16_384),
        3..=9 => rng.between(200, 300),
        _ => rng.between(0, 40),
    };
    let cap = rng.pick(&[4, 8, 11, 12, 13, 14, 16, 17, 18, 18]);
    let kind = if n == 0 { codes::Kind::Empty } else { codes::kind(&mut rng, 30) };
    let lengths = codes::lengths(&mut rng, n, cap, kind);
    let samples = rng.below(60);
    let payload = payload(&mut rng, &lengths, samples);
    (lengths, payload, samples)
}

/// A chain of words, noise, or a chain that is cut.
fn payload(rng: &mut Rng, lengths: &[u8], samples: usize) -> Vec<u8> {
    let code = Code::of(lengths).ok().filter(|c| c.shortest().is_some());
    match code {
        Some(code) if rng.chance(75) => {
            let words: Vec<(u32, u32, u16)> = code.words().collect();
            let mut writer = draft::BitWriter::default();
            for _ in 0..samples {
                let (length, word, _) = rng.pick(&words);
                writer.put(word, length);
            }
            let mut bytes = writer.done();
            if rng.chance(25) {
                bytes.truncate(rng.below(bytes.len() + 1));
            }
            bytes
        }
        _ => {
            let count = rng.below(40);
            rng.bytes(count)
        }
    }
}

/// Runs a plan.
pub fn run(plan: &Plan) -> (Comparison, Differences) {
    let mut comparison = Comparison::new(Ours::new(plan.spoil));
    comparison.leave_out = plan.leave_out;
    let mut found = Differences::default();
    for case in 0..plan.frames {
        found.frame(&mut comparison, &random_frame(plan.seed, case), plan.seed ^ case);
    }
    for case in 0..plan.split {
        found.split(&mut comparison, plan.seed, case);
    }
    for case in 0..plan.alone {
        one_alone(&mut comparison, &mut found, plan.seed, case);
    }
    if plan.small {
        small::all(&mut comparison, &mut found);
    }
    if plan.largest {
        small::largest(&mut comparison, &mut found);
    }
    (comparison, found)
}

/// A table, its lookups and a reading.
fn one_alone(c: &mut Comparison, found: &mut Differences, seed: u64, case: u64) {
    let (lengths, payload, n) = random_reading(seed, case);
    found.alone(&lengths, &payload, n, c.table(&lengths, case));
    found.alone(&lengths, &payload, n, c.lookups(&lengths, &payload, case));
    found.alone(&lengths, &payload, n, c.reading(&lengths, &payload, n, (case % 4) as usize, case));
}
