//! Where the time goes: checks, tables, words, prediction, clearing.
//!
//! The plain program says itself when a stage begins. Ours is measured from outside, by calls that do
//! one part of the work, and by subtraction:
//!
//! * clearing: the workspace cleared by itself;
//! * checks: the frame refused by 13 at its last slice, less its clearing of planes and workspace.
//!   The weighing of the lengths (9, 10 and the need) is among them;
//! * tables: `build` of each plane, less the weighing in it, which is a `build` refused by 11;
//! * words, raw at 8 bits: the payloads copied by themselves. Coded above 8 bits: `read` of every
//!   slice's payload, less as many `build`s and clearings;
//! * prediction at 8 bits: the raw frame of the same picture, less all the others. Above 8 bits: the
//!   coded frame, less all the others. With it goes the adding of G;
//! * what is then still missing of the frame, words or prediction, is the frame less all the others.
//!
//! A figure so near zero that noise covers it may come out below zero.

use crate::lent::{Input, Memory, Planes};
use crate::measure::{clock, in_turn, Pair, Task};
use crate::pictures::{frame, Kind, FRAMES, TIMED};
use crate::sides::{ours, plain_side, Sides, NAMES};
use crate::Options;
use compare::draft::{slice_samples, Draft};
use magicyuv_host::model::needs;
use magicyuv_host::{build, read, Answer};
use plain::Stage;
use std::cell::RefCell;
use std::hint::black_box;
use std::time::Instant;

/// The stages' names, in the order of `plain::Stage`.
pub const STAGES: [&str; 5] = ["checks", "tables", "words", "prediction", "clearing"];

/// The frames whose stages are shown, of `FRAMES`.
const SHOWN: [usize; 7] = [0, 5, 1, 9, 10, 2, 3];

/// One side's stages of one frame, and all of it, in nanoseconds a sample.
pub struct Staged {
    /// The frame.
    pub name: String,
    /// The side.
    pub side: &'static str,
    /// Its stages.
    pub stages: [Pair; 5],
    /// The whole, measured without stages.
    pub whole: Pair,
}

impl Staged {
    /// One line a stage: keyword, frame, side, stage, nanoseconds a sample, least and median.
    pub fn lines(&self) {
        let all = STAGES.iter().zip(&self.stages).chain([(&"whole", &self.whole)]);
        for (stage, pair) in all {
            let (name, side) = (&self.name, self.side);
            println!("stage\t{name}\t{side}\t{stage}\t{:.3}\t{:.3}", pair.least, pair.median);
        }
    }

    /// A line of the reader's table.
    pub fn row(&self) {
        print!("{:<44}{:<6}", self.name, self.side);
        self.stages.iter().for_each(|pair| print!("{:>12.3}", pair.least));
        println!("{:>12.3}", self.whole.least);
    }
}

/// The reader's table's head.
pub fn heading() {
    println!("\nstages, nanoseconds a sample, least of all runs");
    print!("{:<44}{:<6}", "frame", "side");
    STAGES.iter().for_each(|stage| print!("{stage:>12}"));
    println!("{:>12}", "whole");
}

/// Every shown frame, ours and the plain program.
pub fn all(options: &Options, sink: &mut dyn FnMut(Staged)) -> Result<(), String> {
    for kind in SHOWN.map(|at| &FRAMES[at]) {
        let draft = frame(kind, &TIMED);
        let input = Input::of(&draft);
        Sides::of(&input, options.spoil).map_err(|what| format!("{}: {what}", kind.name()))?;
        let each = input.nanoseconds();
        for (side, times) in NAMES.into_iter().zip(both(kind, &draft, &input, options.runs)) {
            let (stages, whole) = (times.stages.map(|p| p.times(each)), times.whole.times(each));
            sink(Staged { name: kind.name(), side, stages, whole });
        }
    }
    Ok(())
}

/// A side's stages and all of it, in seconds.
struct Times {
    stages: [Pair; 5],
    whole: Pair,
}

/// What can be measured of one frame by itself.
struct Parts<'a> {
    draft: &'a Draft,
    input: Input,
    refused: Input,
    memory: RefCell<Memory>,
    /// The samples of one slice.
    slice: RefCell<Vec<u16>>,
}

/// How many tasks a frame's parts are.
const TASKS: usize = 8;

impl<'a> Parts<'a> {
    fn of(draft: &'a Draft) -> Parts<'a> {
        let (input, refused) = (Input::of(draft), Input::refused_by_13(draft));
        let memory = RefCell::new(Memory::noisy(&input, 1));
        let slice = RefCell::new(vec![0; slice_samples(&draft.geometry, 0, 0)]);
        Parts { draft, input, refused, memory, slice }
    }

    fn tasks(&self) -> [Task<'_>; TASKS] {
        [
            Box::new(|| self.decode(&self.input)),
            Box::new(|| self.decode(&self.refused)),
            Box::new(|| clock(|| self.memory.borrow_mut().clear(false)).1),
            Box::new(|| self.clear_after_decoding()),
            Box::new(|| clock(|| self.builds(&mut self.memory.borrow_mut().workspace, 0)).1),
            Box::new(|| clock(|| self.builds(&mut [], 11)).1),
            Box::new(|| clock(|| self.words()).1),
            Box::new(|| clock(|| self.tables_of_words()).1),
        ]
    }

    fn decode(&self, input: &Input) -> f64 {
        let (answer, time) = clock(|| ours(input, &mut self.memory.borrow_mut()));
        assert_eq!(answer.number(), input.number);
        time
    }

    /// Planes and workspace cleared when the caches hold what they hold at the refusal's own clearing.
    fn clear_after_decoding(&self) -> f64 {
        self.decode(&self.input);
        clock(|| self.memory.borrow_mut().clear(true)).1
    }

    /// Every plane's table built, or refused by 11 for want of room.
    fn builds(&self, workspace: &mut [u32], number: u32) {
        for lengths in &self.draft.lengths {
            assert_eq!(build(black_box(lengths), workspace).number(), number);
        }
    }

    /// Whether the words can be measured by themselves: raw at 8 bits, coded above.
    fn know_words(&self) -> bool {
        self.input.is_eight() == (self.draft.slices[0].flag == 1)
    }

    fn words(&self) {
        match (self.know_words(), self.input.is_eight()) {
            (true, true) => self.copies(),
            (true, false) => self.each_slice(|s, plane, words| self.reading(s, plane, words)),
            (false, _) => {}
        }
    }

    /// The payloads of a raw frame of 8 bits, copied to where their rows stand.
    fn copies(&self) {
        let planes = &mut self.memory.borrow_mut().planes;
        let Planes::Eight(planes) = planes else { return };
        let mut rest = black_box(&mut planes[..]);
        for slice in &self.draft.slices {
            let (rows, after) = rest.split_at_mut(slice.payload.len());
            rows.copy_from_slice(&slice.payload);
            rest = after;
        }
    }

    /// One slice read by itself.
    fn reading(&self, s: usize, plane: usize, workspace: &mut [u32]) {
        let count = slice_samples(&self.draft.geometry, plane, s % self.draft.geometry.bands());
        let (lengths, payload) = (&self.draft.lengths[plane], &self.draft.slices[s].payload);
        let samples = &mut self.slice.borrow_mut()[..count];
        assert_eq!(read(lengths, payload, workspace, samples), Answer::Planes);
    }

    /// What a reading by itself does besides: a table built for every slice, and cleared.
    fn tables_of_words(&self) {
        if self.input.is_eight() || !self.know_words() {
            return;
        }
        self.each_slice(|_, plane, words| {
            assert_eq!(build(&self.draft.lengths[plane], words), Answer::Planes);
            black_box(words).fill(0);
        });
    }

    /// Goes through the slices, each with its plane and as much workspace as that needs.
    fn each_slice(&self, work: impl Fn(usize, usize, &mut [u32])) {
        let depth = self.draft.geometry.depth;
        let need = |lengths: &Vec<u8>| needs(lengths, depth).expect("shares of at most one");
        let needs: Vec<usize> = self.draft.lengths.iter().map(need).collect();
        let workspace = &mut self.memory.borrow_mut().workspace;
        for (s, plane) in self.draft.order.iter().map(|p| *p as usize).enumerate() {
            work(s, plane, &mut workspace[..needs[plane]]);
        }
    }
}

/// What the tasks of a frame's parts say, in seconds.
struct Known {
    whole: Pair,
    checks: Pair,
    tables: Pair,
    clearing: Pair,
    words: Pair,
}

impl Known {
    fn of(times: &[Pair]) -> Known {
        let [whole, refused, clearing, both, built, weighed, read, besides] = times else {
            panic!("the tasks of one frame");
        };
        Known {
            whole: *whole,
            checks: refused.less(*both),
            tables: built.less(*weighed),
            clearing: *clearing,
            words: read.less(*besides),
        }
    }

    /// Words and prediction together.
    fn rest(&self) -> Pair {
        self.whole.less(self.checks).less(self.tables).less(self.clearing)
    }
}

/// Ours and the plain program. Of ours: the frame's own parts, and where its words cannot be measured
/// by themselves, those of the same picture raw instead of coded, or coded instead of raw. Of the plain
/// program: its own word of its stages, and all of it without asking for them. All are run in turn.
fn both(kind: &Kind, draft: &Draft, input: &Input, runs: usize) -> [Times; 2] {
    let own = Parts::of(draft);
    let twin = (!own.know_words()).then(|| frame(&kind.with_raw(!kind.is_raw()), &TIMED));
    let twin = twin.as_ref().map(Parts::of);
    let memory = RefCell::new(Memory::noisy(input, 1));
    let spent = RefCell::new([(); 5].map(|_| Vec::new()));
    let mut tasks = Vec::from(own.tasks());
    twin.iter().for_each(|twin| tasks.extend(twin.tasks()));
    let ours = tasks.len();
    tasks.push(Box::new(|| clock(|| plain_side(input, &mut memory.borrow_mut())).1));
    tasks.push(Box::new(|| {
        let times = one_staged(input, &mut memory.borrow_mut());
        spent.borrow_mut().iter_mut().zip(times).for_each(|(all, seconds)| all.push(seconds));
        times.iter().sum()
    }));
    let times = in_turn(runs, tasks);
    let plain = Times { stages: spent.into_inner().map(Pair::of), whole: times[ours] };
    [our_stages(&times[..ours]), plain]
}

/// The first parts are the frame's, the last those whose words were measured by themselves.
fn our_stages(times: &[Pair]) -> Times {
    let known = Known::of(&times[..TASKS]);
    let measured = Known::of(&times[times.len() - TASKS..]);
    let prediction = measured.rest().less(measured.words);
    let words = known.rest().less(prediction);
    let stages = [known.checks, known.tables, words, prediction, known.clearing];
    Times { stages, whole: known.whole }
}

fn one_staged(input: &Input, memory: &mut Memory) -> [f64; 5] {
    let mut spent = [0.0; 5];
    let (mut stage, mut since) = (Stage::Checks, Instant::now());
    let mut enter = |next: Stage| {
        let now = Instant::now();
        spent[stage as usize] += (now - since).as_secs_f64();
        (stage, since) = (next, now);
    };
    let Input { bytes, lengths, geometry, .. } = input;
    let (words, numbers) = (&mut memory.workspace, geometry.numbers());
    let answer = match &mut memory.planes {
        Planes::Eight(s) => plain::staged8(bytes, lengths, s, words, &numbers, &mut enter),
        Planes::Sixteen(s) => plain::staged16(bytes, lengths, s, words, &numbers, &mut enter),
    };
    enter(Stage::Checks);
    assert_eq!(answer, Answer::Planes);
    spent
}
