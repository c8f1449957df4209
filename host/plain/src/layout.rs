//! The layout of document 01: entries, preamble and indices, and refusals 5 to 8.

use crate::refuse_if;
use crate::shape::Shape;
use magicyuv_host::{Answer, Place};

/// The header's byte count, which every entry is counted from.
const HEADER: usize = 32;

/// A frame whose entries and indices passed refusals 5 to 8.
pub struct Layout<'a> {
    frame: &'a [u8],
    indices: &'a [u8],
}

/// A slice as entries and indices give it.
pub struct Slice {
    /// Its number in wire order.
    pub number: u32,
    /// The plane that its index names.
    pub plane: usize,
    /// How many earlier slices name that plane.
    pub place: usize,
    /// 32 + its entry.
    pub start: usize,
    /// The next start; for the last slice the frame's end.
    pub end: usize,
}

/// 32 + entry i.
fn start_of(frame: &[u8], i: usize) -> usize {
    let at = HEADER + 4 * i;
    let entry = frame[at..at + 4].try_into().expect("four bytes");
    HEADER + u32::from_le_bytes(entry) as usize
}

impl<'a> Layout<'a> {
    /// The layout of a frame, or refusal 5 to 8.
    pub fn of(shape: &Shape, frame: &'a [u8]) -> Result<Layout<'a>, Answer> {
        let (planes, total) = (shape.planes().len(), shape.slices());
        let table_end = HEADER + 4 * (total + 1);
        refuse_if(frame.len() < table_end, 5, Place::Nothing)?;
        let preamble = frame.get(table_end..start_of(frame, 1)).unwrap_or(&[]);
        refuse_if(preamble.is_empty(), 6, Place::Nothing)?;
        refuse_if(preamble[0] as usize != planes, 7, Place::Nothing)?;
        refuse_if(preamble.len() < 1 + total, 6, Place::Nothing)?;
        let indices = &preamble[1..1 + total];
        let mut filled = [0; 4];
        for (s, index) in indices.iter().enumerate() {
            let plane = *index as usize;
            let bad = plane >= planes || filled[plane] == shape.bands;
            refuse_if(bad, 8, Place::Slice(s as u32))?;
            filled[plane] += 1;
        }
        Ok(Layout { frame, indices })
    }

    /// The frame.
    pub fn frame(&self) -> &'a [u8] {
        self.frame
    }

    /// Every slice in wire order. Its bounds are not judged yet.
    pub fn slices(&self) -> impl Iterator<Item = Slice> + 'a {
        let (frame, last) = (self.frame, self.indices.len() - 1);
        let mut filled = [0; 4];
        self.indices.iter().enumerate().map(move |(s, index)| {
            let plane = *index as usize;
            let place = filled[plane];
            filled[plane] += 1;
            let end = if s < last { start_of(frame, s + 2) } else { frame.len() };
            Slice { number: s as u32, plane, place, start: start_of(frame, s + 1), end }
        })
    }
}
