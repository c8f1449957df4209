//! What a side is lent: a frame with its lengths and geometry, planes and a workspace.

use compare::draft::Draft;
use compare::rng::Rng;
use magicyuv_host::model::needs;
use magicyuv_host::Geometry;
use std::hint::black_box;

/// A frame, and what must be answered to it.
pub struct Input {
    /// The frame.
    pub bytes: Vec<u8>,
    /// The lengths of all planes.
    pub lengths: Vec<u8>,
    /// The geometry.
    pub geometry: Geometry,
    /// The workspace words that it needs.
    pub need: usize,
    /// 0 for planes, else the refusal's number.
    pub number: u32,
}

impl Input {
    /// A sound frame.
    pub fn of(draft: &Draft) -> Input {
        let (lengths, geometry) = (draft.lengths.concat(), draft.geometry);
        let need = needs(&lengths, geometry.depth).expect("shares of at most one");
        Input { bytes: draft.bytes(), lengths, geometry, need, number: 0 }
    }

    /// Whether its samples are bytes.
    pub fn is_eight(&self) -> bool {
        self.geometry.depth == 8
    }

    /// Seconds as nanoseconds a sample.
    pub fn nanoseconds(&self) -> f64 {
        1e9 / self.geometry.samples() as f64
    }

    /// Bits of the frame over its samples.
    pub fn bits(&self) -> f64 {
        8.0 * self.bytes.len() as f64 / self.geometry.samples() as f64
    }

    /// The frame refused by 13 at its last slice, of which one byte is left: nothing is read yet.
    pub fn refused_by_13(draft: &Draft) -> Input {
        let mut input = Input { number: 13, ..Input::of(draft) };
        let last = draft.slices.last().expect("a frame has slices").payload.len();
        input.bytes.truncate(input.bytes.len() - last - 1);
        input
    }

    /// The frame refused by 15 at its last slice: every slice before it is read.
    pub fn refused_by_15(draft: &Draft) -> Input {
        let mut input = Input { number: 15, ..Input::of(draft) };
        let last = draft.slices.last().expect("a frame has slices").payload.len();
        let at = input.bytes.len() - last - 1;
        input.bytes[at] = 0;
        input
    }

    /// The frame refused by 14 within its last words: its last four bytes become ones, which no word
    /// begins with, since longest words start at zero and the shares are less than one.
    pub fn refused_by_14(draft: &Draft) -> Input {
        let mut input = Input { number: 14, ..Input::of(draft) };
        let from = input.bytes.len() - 4;
        input.bytes[from..].fill(0xff);
        input
    }
}

/// The plane buffer of an entry.
#[derive(PartialEq, Eq)]
pub enum Planes {
    /// Depth 8.
    Eight(Vec<u8>),
    /// Depths 10, 12 and 14.
    Sixteen(Vec<u16>),
}

impl Planes {
    /// A sample, widened.
    pub fn at(&self, i: usize) -> u16 {
        match self {
            Planes::Eight(samples) => u16::from(samples[i]),
            Planes::Sixteen(samples) => samples[i],
        }
    }

    /// How many there are.
    pub fn len(&self) -> usize {
        match self {
            Planes::Eight(samples) => samples.len(),
            Planes::Sixteen(samples) => samples.len(),
        }
    }

    /// Changes the lowest bit of the last sample.
    pub fn spoil(&mut self) {
        match self {
            Planes::Eight(samples) => samples.iter_mut().last().into_iter().for_each(|s| *s ^= 1),
            Planes::Sixteen(samples) => samples.iter_mut().last().into_iter().for_each(|s| *s ^= 1),
        }
    }

    fn clear(&mut self) {
        match self {
            Planes::Eight(samples) => black_box(samples).fill(0),
            Planes::Sixteen(samples) => black_box(samples).fill(0),
        }
    }
}

/// The memory that is written: planes and workspace.
pub struct Memory {
    /// The plane buffer.
    pub planes: Planes,
    /// Just the words that the frame needs.
    pub workspace: Vec<u32>,
}

impl Memory {
    /// What an input needs, filled with noise.
    pub fn noisy(input: &Input, seed: u64) -> Memory {
        let mut rng = Rng::of(seed, 0);
        let count = input.geometry.samples();
        let planes = if input.is_eight() {
            Planes::Eight((0..count).map(|_| rng.byte()).collect())
        } else {
            Planes::Sixteen((0..count).map(|_| rng.next() as u16).collect())
        };
        Memory { planes, workspace: (0..input.need).map(|_| rng.next() as u32).collect() }
    }

    /// Clears what a call clears: the workspace; after a refusal from 5 on also the planes.
    pub fn clear(&mut self, refused: bool) {
        black_box(&mut self.workspace).fill(0);
        if refused {
            self.planes.clear();
        }
    }
}
