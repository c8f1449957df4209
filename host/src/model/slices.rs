//! The slice checks (12, 13, 14, 12) and the reading of slices (15, 14) of document 01.

use super::bits::window;
use super::layout::Slice;
use super::predict::{self, Predictor};
use super::shape::Shape;
use super::words::Code;
use super::{refuse_if, Refusal};
use crate::Place;

/// A checked slice's parts.
struct Parts<'a> {
    raw: bool,
    predictor: u8,
    payload: &'a [u8],
}

fn parts<'a>(frame: &'a [u8], slice: &Slice) -> Parts<'a> {
    let bytes = &frame[slice.start..slice.end];
    Parts { raw: bytes[0] & 1 == 1, predictor: bytes[1], payload: &bytes[2..] }
}

/// Samples of a slice.
fn samples(shape: &Shape, slice: &Slice) -> usize {
    let plane = &shape.planes[slice.plane];
    plane.rows(slice.place).len() * plane.width
}

/// Every slice in wire order: bounds (12), 13, wordless plane (14), size (12).
pub fn check(shape: &Shape, frame: &[u8], slices: &[Slice], codes: &[Code]) -> Result<(), Refusal> {
    for (s, slice) in slices.iter().enumerate() {
        let place = Place::Slice(s as u32);
        let outside = slice.end < slice.start || slice.end > frame.len();
        refuse_if(outside, 12, place)?;
        refuse_if(slice.end - slice.start < 2, 13, place)?;
        let parts = parts(frame, slice);
        let shortest = codes[slice.plane].shortest();
        let wordless = !parts.raw && shortest.is_none();
        refuse_if(wordless, 14, Place::Plane(slice.plane as u32))?;
        let each = if parts.raw { shape.depth } else { shortest.unwrap_or(0) };
        let wanted = (samples(shape, slice) * each as usize).div_ceil(8);
        refuse_if(parts.payload.len() < wanted, 12, place)?;
    }
    Ok(())
}

/// Every slice in wire order, each 15 before its 14, rebuilt into its rows of its plane.
pub fn read(
    shape: &Shape,
    frame: &[u8],
    slices: &[Slice],
    codes: &[Code],
) -> Result<Vec<Vec<u16>>, Refusal> {
    let empty = |p: &super::shape::Plane| vec![0u16; p.width * p.height];
    let mut planes: Vec<Vec<u16>> = shape.planes.iter().map(empty).collect();
    for (s, slice) in slices.iter().enumerate() {
        let parts = parts(frame, slice);
        let predictor =
            Predictor::of(parts.predictor).ok_or(Refusal::at(15, Place::Slice(s as u32)))?;
        let mut band = residues(shape, slice, &parts, &codes[slice.plane])?;
        let plane = &shape.planes[slice.plane];
        predict::rebuild(predictor, &mut band, plane.width, shape.depth, shape.interlaced);
        let from = plane.rows(slice.place).start * plane.width;
        planes[slice.plane][from..from + band.len()].copy_from_slice(&band);
    }
    Ok(planes)
}

/// A slice's residues, or refusal 14.
fn residues(shape: &Shape, slice: &Slice, parts: &Parts, code: &Code) -> Result<Vec<u16>, Refusal> {
    let count = samples(shape, slice);
    if parts.raw {
        return Ok(raw(parts.payload, count, shape.depth));
    }
    coded(code, parts.payload, count).ok_or(Refusal::at(14, Place::Plane(slice.plane as u32)))
}

/// Raw samples, packed at depth bits, highest bit first.
fn raw(payload: &[u8], count: usize, depth: u32) -> Vec<u16> {
    (0..count).map(|i| window(payload, i * depth as usize, depth) as u16).collect()
}

/// A chain of `count` words from the payload's first bit, or none.
pub fn coded(code: &Code, payload: &[u8], count: usize) -> Option<Vec<u16>> {
    let mut position = 0;
    let mut out = Vec::with_capacity(count);
    for _ in 0..count {
        let (length, symbol) = code.word_at(payload, position)?;
        position += length as usize;
        out.push(symbol);
    }
    Some(out)
}
