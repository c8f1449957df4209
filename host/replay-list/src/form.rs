//! The stored list's form: one case after another. All numbers are little-endian u32, with nothing
//! between them:
//!
//! ```text
//! entry, 8 or 16
//! width, height, slice height, family, sx, sy, depth, interlaced
//! workspace words, plane buffer elements, lengths to lend
//! number (0 for planes), kind (0 nothing, 1 slice, 2 plane), place
//! bytes of the runs, of what the planes hold afterwards, of the frame
//! source: 0 all from the Rust, 1 the place from document 01, 2 all from document 01
//! the runs: for each 256 times the place after its last length, plus the length
//! what the planes hold afterwards: one byte an element for entry 8, two for entry 16, low byte
//!   first. The samples for number 0; for 1 to 4 what is lent; else zeros
//! the frame
//! ```
//!
//! All sizes stand before the parts, so that a reader needs only a byte slice and a position.

use compare::our_side::Lent;
use magicyuv_host::model::Entry;
use magicyuv_host::{Answer, Numbers, Place};

/// Where an answer comes from.
#[derive(Clone, Copy, Debug, PartialEq, Eq)]
pub enum Source {
    /// All from the Rust.
    Rust,
    /// The place from document 01, the rest from the Rust.
    RustWithoutPlace,
    /// All from document 01: the Rust cannot be asked.
    Document,
}

impl Source {
    fn number(self) -> u32 {
        match self {
            Source::Rust => 0,
            Source::RustWithoutPlace => 1,
            Source::Document => 2,
        }
    }
}

/// One case.
#[derive(Clone, Debug)]
pub struct Case {
    /// The entry called.
    pub entry: Entry,
    /// The geometry.
    pub numbers: Numbers,
    /// Workspace words to lend.
    pub words: usize,
    /// Plane buffer elements to lend.
    pub elements: usize,
    /// The answer.
    pub answer: Answer,
    /// Where it comes from.
    pub source: Source,
    /// The lengths to lend.
    pub lengths: Vec<u8>,
    /// The picture; empty unless accepted.
    pub samples: Vec<u16>,
    /// The frame.
    pub frame: Vec<u8>,
}

impl Case {
    /// What is lent for the case.
    pub fn lent(&self) -> Lent<'_> {
        Lent {
            entry: self.entry,
            frame: &self.frame,
            lengths: &self.lengths,
            samples: self.elements,
            words: self.words,
            numbers: self.numbers,
        }
    }
}

fn put(out: &mut Vec<u8>, numbers: &[u32]) {
    numbers.iter().for_each(|n| out.extend(n.to_le_bytes()));
}

/// The runs of equal lengths: where each ends, and its length.
fn runs(lengths: &[u8]) -> Vec<u32> {
    let mut out: Vec<u32> = Vec::new();
    for (at, length) in lengths.iter().enumerate() {
        let run = 256 * (at as u32 + 1) + u32::from(*length);
        match out.last_mut() {
            Some(last) if *last % 256 == u32::from(*length) => *last = run,
            _ => out.push(run),
        }
    }
    out
}

/// The lengths that runs spell; none where a run ends before it begins.
fn lengths(runs: &[u8]) -> Option<Vec<u8>> {
    let mut out = Vec::new();
    for run in runs.chunks(4) {
        let run = u32::from_le_bytes(run.try_into().ok()?);
        let end = (run / 256) as usize;
        (out.len() < end).then(|| out.resize(end, run as u8))?;
    }
    Some(out)
}

/// Bytes of an element.
fn width(entry: Entry) -> usize {
    if entry == Entry::Eight {
        1
    } else {
        2
    }
}

/// What the planes hold afterwards. For refusals 1 to 4 that is what is lent: bytes that are neither
/// all the same nor all zero.
fn after(case: &Case) -> Vec<u8> {
    let bytes = case.elements * width(case.entry);
    match (case.answer.number(), case.entry) {
        (0, Entry::Eight) => case.samples.iter().map(|s| *s as u8).collect(),
        (0, Entry::Sixteen) => case.samples.iter().flat_map(|s| s.to_le_bytes()).collect(),
        (1..=4, _) => (0..bytes).map(|i| (165 + 37 * i) as u8).collect(),
        _ => vec![0; bytes],
    }
}

fn put_case(out: &mut Vec<u8>, case: &Case) {
    let (n, place) = (&case.numbers, case.answer.place());
    let (runs, after) = (runs(&case.lengths), after(case));
    put(out, &[if case.entry == Entry::Eight { 8 } else { 16 }]);
    put(out, &[n.width, n.height, n.slice_height, n.family, n.sx, n.sy, n.depth, n.interlaced]);
    put(out, &[case.words as u32, case.elements as u32, case.lengths.len() as u32]);
    put(out, &[case.answer.number(), place.kind(), place.index()]);
    put(out, &[4 * runs.len() as u32, after.len() as u32, case.frame.len() as u32]);
    put(out, &[case.source.number()]);
    put(out, &runs);
    out.extend(after);
    out.extend(&case.frame);
}

/// The whole list as bytes.
pub fn write(cases: &[Case]) -> Vec<u8> {
    let mut out = Vec::new();
    cases.iter().for_each(|case| put_case(&mut out, case));
    out
}

/// A reader with a byte slice and a position, as the gate's program has it.
struct Reader<'a> {
    bytes: &'a [u8],
    at: usize,
}

impl<'a> Reader<'a> {
    fn part(&mut self, count: usize) -> Option<&'a [u8]> {
        let part = self.bytes.get(self.at..self.at.checked_add(count)?)?;
        self.at += count;
        Some(part)
    }

    fn number(&mut self) -> Option<u32> {
        self.part(4).map(|b| u32::from_le_bytes([b[0], b[1], b[2], b[3]]))
    }
}

/// Reads the list back; none where it is not of this form.
pub fn read(bytes: &[u8]) -> Option<Vec<Case>> {
    let mut reader = Reader { bytes, at: 0 };
    let mut out = Vec::new();
    while reader.at < bytes.len() {
        out.push(case(&mut reader)?);
    }
    Some(out)
}

fn case(r: &mut Reader) -> Option<Case> {
    let entry = match r.number()? {
        8 => Entry::Eight,
        16 => Entry::Sixteen,
        _ => return None,
    };
    let numbers = numbers(r)?;
    let (words, elements, count) = (r.number()?, r.number()?, r.number()?);
    let answer = answer(r.number()?, r.number()?, r.number()?)?;
    let sizes = [r.number()?, r.number()?, r.number()?].map(|n| n as usize);
    let source = source(r.number()?)?;
    let lengths = lengths(r.part(sizes[0])?)?;
    let held = r.part(sizes[1])?;
    let samples = if answer == Answer::Planes { samples(entry, held) } else { vec![] };
    let frame = r.part(sizes[2])?.to_vec();
    let (words, elements) = (words as usize, elements as usize);
    let case = Case { entry, numbers, words, elements, answer, source, lengths, samples, frame };
    let whole = case.lengths.len() == count as usize && held.len() == elements * width(entry);
    whole.then_some(case)
}

fn numbers(r: &mut Reader) -> Option<Numbers> {
    Some(Numbers {
        width: r.number()?,
        height: r.number()?,
        slice_height: r.number()?,
        family: r.number()?,
        sx: r.number()?,
        sy: r.number()?,
        depth: r.number()?,
        interlaced: r.number()?,
    })
}

fn answer(number: u32, kind: u32, place: u32) -> Option<Answer> {
    let place = match kind {
        0 => Place::Nothing,
        1 => Place::Slice(place),
        2 => Place::Plane(place),
        _ => return None,
    };
    Some(if number == 0 { Answer::Planes } else { Answer::Refused { number, place } })
}

fn source(number: u32) -> Option<Source> {
    [Source::Rust, Source::RustWithoutPlace, Source::Document].get(number as usize).copied()
}

fn samples(entry: Entry, bytes: &[u8]) -> Vec<u16> {
    match entry {
        Entry::Eight => bytes.iter().map(|b| u16::from(*b)).collect(),
        Entry::Sixteen => {
            bytes.chunks(2).map(|b| u16::from(b[0]) + 256 * u16::from(b[1])).collect()
        }
    }
}

#[cfg(test)]
mod tests {
    use super::*;
    use magicyuv_host::{Family, Geometry};

    fn sample(depth: u32, answer: Answer) -> Case {
        let accepted = answer == Answer::Planes;
        Case {
            entry: if depth == 8 { Entry::Eight } else { Entry::Sixteen },
            numbers: Geometry::plain(Family::Gray, 2, 1, 1, depth).numbers(),
            words: 3,
            elements: 2,
            answer,
            source: Source::RustWithoutPlace,
            lengths: vec![0, 0, 7, 7, 7, 1],
            samples: if accepted { vec![200, (1 << depth) - 1] } else { vec![] },
            frame: vec![9, 8, 7],
        }
    }

    #[test]
    fn a_list_comes_back_and_every_cut_within_a_case_is_refused() {
        let refused = Answer::Refused { number: 12, place: Place::Slice(5) };
        let cases = [sample(8, Answer::Planes), sample(14, Answer::Planes), sample(8, refused)];
        let bytes = write(&cases);
        let back = read(&bytes).expect("the form");
        assert_eq!(format!("{back:?}"), format!("{cases:?}"));
        let whole = |end: usize| read(&bytes[..end]).is_none_or(|cut| write(&cut).len() == end);
        assert!((0..bytes.len()).all(whole));
        assert_eq!((0..bytes.len()).filter(|end| read(&bytes[..*end]).is_some()).count(), 3);
    }
}
