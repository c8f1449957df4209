//! The layout of document 01: entries, preamble, indices, and refusals 5 to 8.

use super::shape::Shape;
use super::{refuse_if, Refusal};
use crate::Place;

/// A slice as the table and the indices give it; its bounds are not judged yet.
#[derive(Clone, Copy, Debug, PartialEq, Eq)]
pub struct Slice {
    /// The plane that its index names.
    pub plane: usize,
    /// How many earlier slices name that plane.
    pub place: usize,
    /// 32 + its entry.
    pub start: usize,
    /// The next start; for the last slice the frame's end.
    pub end: usize,
}

/// 32 + entry i.
fn start_of(frame: &[u8], i: usize) -> usize {
    let at = 32 + 4 * i;
    let bytes = [frame[at], frame[at + 1], frame[at + 2], frame[at + 3]];
    32 + u32::from_le_bytes(bytes) as usize
}

/// Refusals 5 to 8, then every slice in wire order.
pub fn slices(shape: &Shape, frame: &[u8]) -> Result<Vec<Slice>, Refusal> {
    let total = shape.slices();
    let table_end = 32 + 4 * (total + 1);
    refuse_if(frame.len() < table_end, 5, Place::Nothing)?;
    let preamble_end = start_of(frame, 1);
    let outside = preamble_end < table_end || preamble_end > frame.len();
    refuse_if(outside || preamble_end == table_end, 6, Place::Nothing)?;
    let preamble = &frame[table_end..preamble_end];
    refuse_if(preamble[0] as usize != shape.planes.len(), 7, Place::Nothing)?;
    refuse_if(preamble.len() < 1 + total, 6, Place::Nothing)?;
    let places = places(shape, &preamble[1..1 + total])?;
    let bounds = |s: usize| {
        let end = if s + 1 < total { start_of(frame, s + 2) } else { frame.len() };
        (start_of(frame, s + 1), end)
    };
    let slice = |(s, (plane, place)): (usize, (usize, usize))| {
        let (start, end) = bounds(s);
        Slice { plane, place, start, end }
    };
    Ok(places.into_iter().enumerate().map(slice).collect())
}

/// Each slice's plane and place, or refusal 8 at the first slice whose index is bad.
fn places(shape: &Shape, indices: &[u8]) -> Result<Vec<(usize, usize)>, Refusal> {
    let mut filled = vec![0usize; shape.planes.len()];
    let mut out = Vec::with_capacity(indices.len());
    for (s, index) in indices.iter().enumerate() {
        let plane = *index as usize;
        let bad = plane >= filled.len() || filled[plane] == shape.bands;
        refuse_if(bad, 8, Place::Slice(s as u32))?;
        out.push((plane, filled[plane]));
        filled[plane] += 1;
    }
    Ok(out)
}
