//! The three sides: ours (the archive), the plain program (crate `plain`) and the customer's Rust
//! (crate `oracle`). Each has memory of its own, kept over all runs. Before any clock the three must
//! agree on every sample, from memory filled with noise.

use crate::lent::{Input, Memory, Planes};
use crate::measure::{clock, in_turn, Pair, Task};
use compare::rng::Rng;
use compare::rust_side::{self, Said};
use magicyuv_host::{core, Answer};
use oracle::decoder::{decode_into, DecodedFrame, Samples};
use std::cell::RefCell;
use std::hint::black_box;

/// The sides' names, in the order of all tables.
pub const NAMES: [&str; 3] = ["ours", "plain", "Rust"];

/// One call of ours or of the plain program.
type Call = fn(&Input, &mut Memory) -> Answer;

/// Ours.
pub fn ours(input: &Input, memory: &mut Memory) -> Answer {
    let Input { bytes, lengths, geometry, .. } = input;
    let (words, numbers) = (&mut memory.workspace, geometry.numbers());
    match &mut memory.planes {
        Planes::Eight(planes) => core().decode8(bytes, lengths, planes, words, &numbers),
        Planes::Sixteen(planes) => core().decode16(bytes, lengths, planes, words, &numbers),
    }
}

/// The plain program. Kept out of line, so that a tool which counts instructions finds it.
#[inline(never)]
pub fn plain_side(input: &Input, memory: &mut Memory) -> Answer {
    let Input { bytes, lengths, geometry, .. } = input;
    let (words, numbers) = (&mut memory.workspace, geometry.numbers());
    match &mut memory.planes {
        Planes::Eight(planes) => plain::decode8(bytes, lengths, planes, words, &numbers),
        Planes::Sixteen(planes) => plain::decode16(bytes, lengths, planes, words, &numbers),
    }
}

/// What a side takes: all of it, and the clearing in it timed alone. Seconds.
#[derive(Clone, Copy)]
pub struct Figure {
    /// As measured.
    pub whole: Pair,
    /// The same memory cleared by itself, in the same runs.
    pub clear: Pair,
}

/// What is changed on our side before the sides are compared, to see that the comparison tells.
#[derive(Clone, Copy, PartialEq, Eq)]
pub enum Spoil {
    /// Nothing.
    Nothing,
    /// The last sample of a sound frame.
    Sample,
    /// The last workspace word.
    Word,
    /// The last sample after a refusal.
    Left,
}

impl Spoil {
    fn bend(self, memory: &mut Memory, refused: bool) {
        match (self, refused) {
            (Spoil::Sample, false) | (Spoil::Left, true) => memory.planes.spoil(),
            (Spoil::Word, _) => {
                memory.workspace.iter_mut().last().into_iter().for_each(|w| *w ^= 1)
            }
            _ => {}
        }
    }
}

/// The three sides of one input, agreed.
pub struct Sides<'a> {
    input: &'a Input,
    /// The sound frame of a refused one: it gives the Rust its buffers back, which an error takes.
    whole: Option<&'a Input>,
    ours: RefCell<Memory>,
    plain: RefCell<Memory>,
    rust: RefCell<DecodedFrame>,
}

impl<'a> Sides<'a> {
    /// The sides of a sound frame, once every sample is the same.
    pub fn of(input: &'a Input, spoil: Spoil) -> Result<Sides<'a>, String> {
        let sides = Sides::decoded(input, None, spoil)?;
        let mut frame = DecodedFrame::empty();
        rust_side(input, &mut frame);
        noise_in(&mut frame);
        rust_side(input, &mut frame);
        same(&sides.ours.borrow().planes, &sides.plain.borrow().planes, &planes_of(&frame))?;
        Ok(Sides { rust: RefCell::new(frame), ..sides })
    }

    /// The sides of a refused frame: one number, one place, and all memory zero.
    pub fn refused(input: &'a Input, whole: &'a Input, spoil: Spoil) -> Result<Sides<'a>, String> {
        let sides = Sides::decoded(input, Some(whole), spoil)?;
        all_zero(&sides.ours.borrow().planes, &sides.plain.borrow().planes)?;
        match rust_side::decode(&input.bytes) {
            Said::Row { number, .. } if number == input.number => {}
            other => return Err(format!("the Rust says {other:?}, not {}", input.number)),
        }
        Ok(sides)
    }

    /// Ours and the plain program from noise: their answers, and their workspaces all zero.
    fn decoded(input: &'a Input, whole: Option<&'a Input>, spoil: Spoil) -> Result<Self, String> {
        let (mut a, mut b) = (Memory::noisy(input, 1), Memory::noisy(input, 2));
        let (said, plainly) = (ours(input, &mut a), plain_side(input, &mut b));
        spoil.bend(&mut a, input.number != 0);
        if said != plainly || said.number() != input.number {
            return Err(format!("ours: {said}; plain: {plainly}; expected: {}", input.number));
        }
        if let Some(at) = (0..input.need).find(|i| a.workspace[*i] != 0 || b.workspace[*i] != 0) {
            return Err(format!("workspace word {at} is not zero"));
        }
        let rust = RefCell::new(DecodedFrame::empty());
        Ok(Sides { input, whole, ours: RefCell::new(a), plain: RefCell::new(b), rust })
    }

    /// Times the three in turn, and after each one its clearing.
    pub fn figures(&self, runs: usize) -> [Figure; 3] {
        let tasks: Vec<Task> = vec![
            Box::new(|| self.decode(&self.ours, ours)),
            Box::new(|| self.clear(&self.ours, ours)),
            Box::new(|| self.decode(&self.plain, plain_side)),
            Box::new(|| self.clear(&self.plain, plain_side)),
            Box::new(|| self.rust()),
            Box::new(|| self.rust_clear()),
        ];
        let times = in_turn(runs, tasks);
        [0, 2, 4].map(|side| Figure { whole: times[side], clear: times[side + 1] })
    }

    /// One run of ours or of the plain program.
    fn decode(&self, memory: &RefCell<Memory>, side: Call) -> f64 {
        let memory = &mut memory.borrow_mut();
        self.before(memory, side);
        let (answer, time) = clock(|| side(self.input, memory));
        assert_eq!(answer.number(), self.input.number, "the answer that was compared before");
        time
    }

    fn clear(&self, memory: &RefCell<Memory>, side: Call) -> f64 {
        let memory = &mut memory.borrow_mut();
        self.before(memory, side);
        clock(|| memory.clear(self.whole.is_some())).1
    }

    /// Before a refused frame, and before its clearing alone, the same side decodes the sound one, so
    /// that the caches hold the same both times.
    fn before(&self, memory: &mut Memory, side: Call) {
        if let Some(whole) = self.whole {
            side(whole, memory);
        }
    }

    fn rust(&self) -> f64 {
        let frame = &mut self.rust.borrow_mut();
        if let Some(whole) = self.whole {
            rust_side(whole, frame);
        }
        let (good, time) = clock(|| decode_into(&self.input.bytes, frame).is_ok());
        assert_eq!(good, self.whole.is_none(), "the answer that was compared before");
        time
    }

    /// The Rust clears its planes when it comes to decode slices, which after 12 and 13 it never does.
    fn rust_clear(&self) -> f64 {
        if self.input.number == 13 {
            return 0.0;
        }
        let mut frame = self.rust.borrow_mut();
        if let Some(whole) = self.whole {
            rust_side(whole, &mut frame);
        }
        let clear = |samples: &mut Samples| match samples {
            Samples::U8(samples) => black_box(samples).fill(0),
            Samples::U16(samples) => black_box(samples).fill(0),
        };
        clock(|| frame.planes.iter_mut().for_each(|plane| clear(&mut plane.samples))).1
    }
}

/// The customer's Rust: its streaming entry, which keeps its buffers. Out of line, as the plain one.
#[inline(never)]
pub fn rust_side(input: &Input, frame: &mut DecodedFrame) {
    decode_into(&input.bytes, frame).expect("the benchmark's frame is sound");
}

/// One call of `rust_side`, after one that gave it its buffers and read its tables of text.
pub fn rust_once(input: &Input) {
    let mut frame = DecodedFrame::empty();
    decode_into(&input.bytes, &mut frame).expect("the benchmark's frame is sound");
    rust_side(input, &mut frame);
}

fn noise_in(frame: &mut DecodedFrame) {
    let mut rng = Rng::of(3, 0);
    for plane in &mut frame.planes {
        match &mut plane.samples {
            Samples::U8(samples) => samples.iter_mut().for_each(|s| *s = rng.byte()),
            Samples::U16(samples) => samples.iter_mut().for_each(|s| *s = rng.next() as u16),
        }
    }
}

/// The Rust's planes one after another.
fn planes_of(frame: &DecodedFrame) -> Planes {
    let (mut eight, mut sixteen) = (Vec::new(), Vec::new());
    for plane in &frame.planes {
        match &plane.samples {
            Samples::U8(samples) => eight.extend(samples),
            Samples::U16(samples) => sixteen.extend(samples),
        }
    }
    if sixteen.is_empty() {
        Planes::Eight(eight)
    } else {
        Planes::Sixteen(sixteen)
    }
}

/// What a refusal must leave.
fn all_zero(ours: &Planes, plain: &Planes) -> Result<(), String> {
    match (0..ours.len()).find(|i| ours.at(*i) != 0 || plain.at(*i) != 0) {
        Some(at) => Err(format!("refused, and sample {at} is not zero")),
        None => Ok(()),
    }
}

/// All three hold the same samples, or where they first do not.
fn same(ours: &Planes, plain: &Planes, rust: &Planes) -> Result<(), String> {
    if ours == plain && ours == rust {
        return Ok(());
    }
    let counts = [ours.len(), plain.len(), rust.len()];
    if counts != [counts[0]; 3] {
        return Err(format!("ours, plain and Rust have {counts:?} samples"));
    }
    let differ = |i: &usize| ours.at(*i) != plain.at(*i) || ours.at(*i) != rust.at(*i);
    let at = (0..counts[0]).find(differ).expect("they are not equal");
    let (a, b, c) = (ours.at(at), plain.at(at), rust.at(at));
    Err(format!("sample {at} of {}: ours {a}, plain {b}, Rust {c}", counts[0]))
}
