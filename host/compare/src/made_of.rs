//! What an accepted frame was made of, so that a reader of the counts sees that each kind was reached.

use crate::our_side::Lent;
use magicyuv_host::model::layout::{self, Slice};
use magicyuv_host::model::shape::Shape;
use magicyuv_host::model::words::Code;
use magicyuv_host::Geometry;
use std::collections::BTreeSet;

/// Names of everything that the frame has.
pub fn made_of(lent: &Lent, geometry: &Geometry) -> BTreeSet<String> {
    let mut names = BTreeSet::new();
    let Ok(shape) = Shape::of(lent.entry, &lent.numbers) else { return names };
    let Ok(slices) = layout::slices(&shape, lent.frame) else { return names };
    geometry_names(&shape, geometry, &mut names);
    if slices.windows(2).any(|w| w[1].plane < w[0].plane) {
        names.insert("slices not plane by plane".into());
    }
    let plane_lengths = |p: usize| &lent.lengths[p << shape.depth..(p + 1) << shape.depth];
    let codes: Vec<Option<Code>> =
        (0..shape.planes.len()).map(|p| Code::of(plane_lengths(p)).ok()).collect();
    for code in codes.iter().flatten() {
        names.insert(format!("a code with longest word {:>2}", code.longest()));
    }
    for slice in &slices {
        slice_names(lent.frame, &shape, slice, &codes, geometry, &mut names);
    }
    names
}

fn geometry_names(shape: &Shape, geometry: &Geometry, names: &mut BTreeSet<String>) {
    if shape.planes.iter().any(|p| p.width == 1) {
        names.insert("a one-column plane".into());
    }
    if shape.planes.iter().any(|p| p.height == 1) {
        names.insert("a one-row plane".into());
    }
    if geometry.height % geometry.slice_height != 0 && geometry.height > geometry.slice_height {
        names.insert("a cut last band".into());
    }
    if geometry.slice_height > geometry.height {
        names.insert("a slice height above the height".into());
    }
}

fn slice_names(
    frame: &[u8],
    shape: &Shape,
    slice: &Slice,
    codes: &[Option<Code>],
    geometry: &Geometry,
    names: &mut BTreeSet<String>,
) {
    let bytes = &frame[slice.start..slice.end];
    let fields = if geometry.interlaced { "two fields" } else { "progressive" };
    let mode = if bytes[0] & 1 == 1 { "raw" } else { "coded" };
    names.insert(format!("predictor {} {mode} depth {} {fields}", bytes[1], shape.depth));
    let plane = &shape.planes[slice.plane];
    let count = plane.rows(slice.place).len() * plane.width;
    if let (0, Some(code)) = (bytes[0] & 1, &codes[slice.plane]) {
        if past_the_end(code, &bytes[2..], count) {
            names.insert("a payload that runs past its end".into());
        }
    }
}

/// Whether the last of `count` words ends past the payload.
fn past_the_end(code: &Code, payload: &[u8], count: usize) -> bool {
    let mut position = 0;
    for _ in 0..count {
        match code.word_at(payload, position) {
            Some((length, _)) => position += length as usize,
            None => return false,
        }
    }
    position > 8 * payload.len()
}
