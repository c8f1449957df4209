//! Our side of the comparison: every entry called on memory filled with noise, once with some noise
//! and once with its complement, so that no element can hold its expected value both times before the
//! call. Document 01 says what must be left; `left.rs` judges it.

use crate::rng::Rng;
use magicyuv_host::model::{Entry, Model};
use magicyuv_host::{Answer, Core, Numbers, Place};

/// What one call is spoiled in, to see that the comparison reports it.
#[derive(Clone, Copy, Debug, PartialEq, Eq)]
pub enum SpoilKind {
    /// One sample of an accepted frame.
    Sample,
    /// The place of a refusal that has one.
    Place,
    /// One workspace word that should be zero.
    Word,
    /// One sample left by a refusal from 5 on.
    Left,
}

/// A spoiling of the `at`-th input that it suits, on its noise and on the complement.
#[derive(Clone, Copy, Debug, PartialEq, Eq)]
pub struct Spoil {
    /// What is spoiled.
    pub kind: SpoilKind,
    /// Which input, counted from 1.
    pub at: u64,
}

/// A call's whole outcome, samples widened to 16 bits.
#[derive(Clone, Debug, PartialEq, Eq)]
pub struct Outcome {
    /// The answer.
    pub answer: Answer,
    /// The plane buffer, or the lent samples, before.
    pub samples_before: Vec<u16>,
    /// And after.
    pub samples: Vec<u16>,
    /// The workspace before.
    pub words_before: Vec<u32>,
    /// And after.
    pub words: Vec<u32>,
}

/// What is lent with a frame.
#[derive(Clone, Debug)]
pub struct Lent<'a> {
    /// The entry called.
    pub entry: Entry,
    /// The frame.
    pub frame: &'a [u8],
    /// The lengths.
    pub lengths: &'a [u8],
    /// The plane buffer's element count.
    pub samples: usize,
    /// The workspace's word count.
    pub words: usize,
    /// The geometry.
    pub numbers: Numbers,
}

/// Our side: what is called, and whether one call is spoiled.
pub struct Ours {
    core: &'static dyn Core,
    spoil: Option<Spoil>,
    suited: u64,
    now: bool,
}

fn noise(seed: u64, flip: bool, count: usize) -> impl Iterator<Item = u32> {
    let mut rng = Rng::of(seed, count as u64);
    let mask = if flip { u32::MAX } else { 0 };
    (0..count).map(move |_| rng.next() as u32 ^ mask)
}

impl Ours {
    /// The host crate's backing, with or without a spoiling.
    pub fn new(spoil: Option<Spoil>) -> Ours {
        Ours { core: magicyuv_host::core(), spoil, suited: 0, now: false }
    }

    /// Whether a spoiling was asked for and no input's turn came, and how many inputs suited it.
    pub fn nothing_spoiled(&self) -> Option<u64> {
        self.spoil.filter(|spoil| self.suited < spoil.at).map(|_| self.suited)
    }

    /// The model, never spoiled.
    pub fn model() -> Ours {
        Ours { core: &Model, spoil: None, suited: 0, now: false }
    }

    /// Decodes on noise, or on its complement.
    pub fn decode(&mut self, lent: &Lent, seed: u64, flip: bool) -> Outcome {
        let words_before: Vec<u32> = noise(seed, flip, lent.words).collect();
        let mut words = words_before.clone();
        let found = noise(!seed, flip, lent.samples);
        let (answer, samples_before, samples) = match lent.entry {
            Entry::Eight => self.eight(lent, found.map(|n| n as u8).collect(), &mut words),
            Entry::Sixteen => self.sixteen(lent, found.map(|n| n as u16).collect(), &mut words),
        };
        let mut outcome = Outcome { answer, samples_before, samples, words_before, words };
        self.spoil(&mut outcome, flip);
        outcome
    }

    fn eight(
        &self,
        lent: &Lent,
        found: Vec<u8>,
        words: &mut [u32],
    ) -> (Answer, Vec<u16>, Vec<u16>) {
        let mut planes = found.clone();
        let answer = self.core.decode8(lent.frame, lent.lengths, &mut planes, words, &lent.numbers);
        let wide = |bytes: Vec<u8>| bytes.into_iter().map(u16::from).collect();
        (answer, wide(found), wide(planes))
    }

    fn sixteen(
        &self,
        lent: &Lent,
        found: Vec<u16>,
        words: &mut [u32],
    ) -> (Answer, Vec<u16>, Vec<u16>) {
        let mut planes = found.clone();
        let answer =
            self.core.decode16(lent.frame, lent.lengths, &mut planes, words, &lent.numbers);
        (answer, found, planes)
    }

    /// Builds a table by itself on noise.
    pub fn build(&mut self, lengths: &[u8], count: usize, seed: u64, flip: bool) -> Outcome {
        let words_before: Vec<u32> = noise(seed, flip, count).collect();
        let mut words = words_before.clone();
        let answer = self.core.build(lengths, &mut words);
        Outcome { answer, samples_before: vec![], samples: vec![], words_before, words }
    }

    /// Reads by itself on noise.
    pub fn read(
        &mut self,
        lengths: &[u8],
        payload: &[u8],
        count: usize,
        n: usize,
        seed: u64,
        flip: bool,
    ) -> Outcome {
        let words_before: Vec<u32> = noise(seed, flip, count).collect();
        let samples_before: Vec<u16> = noise(!seed, flip, n).map(|x| x as u16).collect();
        let (mut words, mut samples) = (words_before.clone(), samples_before.clone());
        let answer = self.core.read(lengths, payload, &mut words, &mut samples);
        let mut outcome = Outcome { answer, samples_before, samples, words_before, words };
        self.spoil(&mut outcome, flip);
        outcome
    }

    /// Spoils the outcome when its input's turn has come; the complement follows its noise.
    fn spoil(&mut self, outcome: &mut Outcome, flip: bool) {
        let Some(spoil) = self.spoil else { return };
        let suited = suits(spoil.kind, outcome);
        if !flip {
            self.suited += u64::from(suited);
            self.now = suited && self.suited == spoil.at;
        }
        if self.now && suited {
            bend(spoil.kind, outcome);
        }
    }
}

fn suits(kind: SpoilKind, outcome: &Outcome) -> bool {
    let number = outcome.answer.number();
    match kind {
        SpoilKind::Sample => number == 0 && !outcome.samples.is_empty(),
        SpoilKind::Place => outcome.answer.place() != Place::Nothing && number != 15,
        SpoilKind::Word => (number == 0 || number > 4) && !outcome.words.is_empty(),
        SpoilKind::Left => number > 4 && !outcome.samples.is_empty(),
    }
}

fn bend(kind: SpoilKind, outcome: &mut Outcome) {
    let last = outcome.samples.len().saturating_sub(1);
    match kind {
        SpoilKind::Sample | SpoilKind::Left => outcome.samples[last] ^= 1,
        SpoilKind::Word => *outcome.words.last_mut().expect("suits") ^= 1,
        SpoilKind::Place => {
            if let Answer::Refused { place, .. } = &mut outcome.answer {
                *place = match *place {
                    Place::Slice(s) => Place::Slice(s + 1),
                    Place::Plane(p) => Place::Plane(p + 1),
                    Place::Nothing => Place::Nothing,
                };
            }
        }
    }
}
