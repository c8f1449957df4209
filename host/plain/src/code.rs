//! A plane's words (document 01, "Words and lookup"): refusals 9 and 10, the need, the table in the
//! lent workspace, and the chain of words that is read with it.
//!
//! A slot of a table is 256 times the symbol plus the word's length, 0 where no word fits. With m the
//! longest length and m at most 12, slot w is that of the next m bits w. Above, the first 4,096 slots
//! are those of the next 12 bits, 255 where a longer word begins so, and behind them stand the slots of
//! the next m bits: longest words come first, so the windows that begin longer words are the first.

use crate::bits::BitReader;
use crate::refuse_if;
use crate::sample::Sample;
use crate::shape::Shape;
use magicyuv_host::{Answer, Place};
use std::ops::Range;

/// The longest word.
const LONGEST: usize = 18;

/// Bits of the first level of a table.
const FIRST_BITS: usize = 12;

/// The length in a slot of the first level that sends to the second.
const LONGER: u32 = 255;

/// The words of one plane, and where its table stands.
#[derive(Clone, Copy, Default)]
pub struct Code {
    /// The first word of each length.
    first: [u32; LONGEST + 1],
    /// m; 0 when there is no word.
    longest: usize,
    /// The shortest word's length; 0 when there is no word.
    shortest: usize,
    /// The table's first slot in the workspace.
    start: usize,
}

/// One plane's lengths.
fn plane_lengths<'a>(shape: &Shape, lengths: &'a [u8], plane: usize) -> &'a [u8] {
    &lengths[plane << shape.depth..(plane + 1) << shape.depth]
}

impl Code {
    /// Every plane's code in wire order, tables one after another; or refusal 9 or 10.
    pub fn of_planes(shape: &Shape, lengths: &[u8]) -> Result<[Code; 4], Answer> {
        let mut codes = [Code::default(); 4];
        let mut start = 0;
        for (p, code) in codes.iter_mut().enumerate().take(shape.planes().len()) {
            *code = Code::of(plane_lengths(shape, lengths, p), Place::Plane(p as u32))?;
            code.start = start;
            start += code.need();
        }
        Ok(codes)
    }

    /// The code of one plane's lengths: 9 for a length above 18, then 10 for shares above one.
    fn of(lengths: &[u8], place: Place) -> Result<Code, Answer> {
        let mut counts = [0u32; LONGEST + 1];
        for length in lengths {
            let count = counts.get_mut(*length as usize);
            *count.ok_or(Answer::Refused { number: 9, place })? += 1;
        }
        let share = |l: usize| counts[l] << (LONGEST - l);
        refuse_if((1..=LONGEST).map(share).sum::<u32>() > 1 << LONGEST, 10, place)?;
        let has_words = |l: &usize| counts[*l] > 0;
        let mut code = Code {
            longest: (1..=LONGEST).rfind(has_words).unwrap_or(0),
            shortest: (1..=LONGEST).find(has_words).unwrap_or(0),
            ..Code::default()
        };
        // Longest first; each shorter length starts at half of what is used, rounded up.
        let mut next = 0;
        for l in (1..=LONGEST).rev() {
            code.first[l] = next;
            next = (next + counts[l]).div_ceil(2);
        }
        Ok(code)
    }

    /// The shortest word's length; `None` when there is no word.
    pub fn shortest(&self) -> Option<usize> {
        (self.shortest > 0).then_some(self.shortest)
    }

    /// 1 word for m = 0; 2^m for m up to 12; else 4,096 + S·2^(m-12). S, the number of first twelve
    /// bits that longer words have, is where the words of twelve bits start.
    pub fn need(&self) -> usize {
        match self.longest {
            m if m <= FIRST_BITS => 1 << m,
            m => (1 << FIRST_BITS) + (self.heads() << (m - FIRST_BITS)),
        }
    }

    /// S.
    fn heads(&self) -> usize {
        self.first[FIRST_BITS] as usize
    }

    /// Where the table stands in the workspace.
    fn slots(&self) -> Range<usize> {
        self.start..self.start + self.need()
    }

    /// Writes every plane's table.
    pub fn build_all(codes: &[Code; 4], shape: &Shape, lengths: &[u8], workspace: &mut [u32]) {
        for (p, code) in codes[..shape.planes().len()].iter().enumerate() {
            code.build(plane_lengths(shape, lengths, p), &mut workspace[code.slots()]);
        }
    }

    /// Writes the table of this code's lengths.
    fn build(&self, lengths: &[u8], slots: &mut [u32]) {
        slots.fill(0);
        let first_bits = self.longest.min(FIRST_BITS);
        let (short, long) = slots.split_at_mut(1 << first_bits);
        if self.longest > FIRST_BITS {
            short[..self.heads()].fill(LONGER);
        }
        let mut next = self.first;
        for (symbol, length) in lengths.iter().enumerate().filter(|(_, l)| **l > 0) {
            let length = *length as usize;
            let word = next[length] as usize;
            next[length] += 1;
            let slot = (symbol << 8 | length) as u32;
            if length <= first_bits {
                let spread = first_bits - length;
                short[word << spread..(word + 1) << spread].fill(slot);
            } else {
                let spread = self.longest - length;
                long[word << spread..(word + 1) << spread].fill(slot);
            }
        }
    }

    /// Reads a chain of words into the samples; false where no word fits.
    pub fn read<S: Sample>(&self, workspace: &[u32], payload: &[u8], samples: &mut [S]) -> bool {
        let slots = &workspace[self.slots()];
        let longest = self.longest as u32;
        // Between two refills 56 bits may be taken: four words of 12 bits, or three of 18.
        if self.longest <= FIRST_BITS {
            return chain::<S, 4>(payload, samples, |bits| slots[bits.peek(longest) as usize]);
        }
        let (short, long) = slots.split_first_chunk::<{ 1 << FIRST_BITS }>().expect("two levels");
        chain::<S, 3>(payload, samples, |bits| {
            let slot = short[bits.peek(FIRST_BITS as u32) as usize];
            if slot != LONGER {
                slot
            } else {
                long[bits.peek(longest) as usize]
            }
        })
    }
}

/// Reads words by a lookup, N of them a refill; false where no word fits.
#[inline]
fn chain<S: Sample, const N: usize>(
    payload: &[u8],
    samples: &mut [S],
    slot_at: impl Fn(&BitReader) -> u32,
) -> bool {
    let mut reader = BitReader::new(payload);
    let mut groups = samples.chunks_exact_mut(N);
    let whole = groups.by_ref().all(|group| words(&mut reader, group, &slot_at));
    whole && words(&mut reader, groups.into_remainder(), &slot_at)
}

/// Reads as many words as one refill is good for; false where no word fits.
#[inline]
fn words<S: Sample>(
    reader: &mut BitReader,
    group: &mut [S],
    slot_at: &impl Fn(&BitReader) -> u32,
) -> bool {
    reader.refill();
    let mut fits = true;
    for sample in group {
        let slot = slot_at(reader);
        fits &= slot != 0;
        reader.consume(slot & 0xff);
        *sample = S::of(slot >> 8);
    }
    fits
}
