//! Geometries that the customer's Rust cannot express: Yuv with factors 1 and 2, Yuva with any factor
//! of 2. Every check from 9 on and every sample belongs to one plane, so a frame of such a geometry is
//! held against the Rust plane by plane: each plane, with its own slices, as a Gray frame of its size.

use crate::draft::{self, Draft};
use crate::frame_check::{entry_of, Comparison};
use crate::our_side::Lent;
use crate::rng::Rng;
use crate::rust_side::{self, Said};
use crate::small::format;
use magicyuv_host::model;
use magicyuv_host::{Answer, Family, Geometry};

/// The family and factors that the Rust has no format for.
const GEOMETRIES: [(Family, u32, u32); 4] =
    [(Family::Yuv, 1, 2), (Family::Yuva, 2, 1), (Family::Yuva, 1, 2), (Family::Yuva, 2, 2)];

/// A random frame of such a geometry; its header bytes, which our entries do not read, say Gray.
pub fn random(seed: u64, case: u64) -> Draft {
    let mut rng = Rng::of(!seed, case);
    let (family, sx, sy) = rng.pick(&GEOMETRIES);
    let depth = rng.pick(&[8, 10, 12, 14]);
    let geometry = Geometry {
        width: sx * rng.between(1, 9) as u32,
        height: sy * rng.between(1, 9) as u32,
        slice_height: sy * rng.between(1, 10) as u32,
        family,
        sx,
        sy,
        depth,
        interlaced: rng.chance(35),
    };
    draft::of_geometry(&mut rng, format(Family::Gray, 1, 1, depth), geometry, 85)
}

/// One plane of a frame as a Gray frame.
fn plane_alone(draft: &Draft, plane: usize) -> Draft {
    let (width, height) = draft.geometry.plane_size(plane);
    let sy = if plane == 1 || plane == 2 { draft.geometry.sy } else { 1 };
    let named = draft.order.iter().zip(&draft.slices).filter(|(p, _)| **p as usize == plane);
    let slices: Vec<_> = named.map(|(_, slice)| slice.clone()).collect();
    Draft {
        geometry: Geometry {
            width: width as u32,
            height: height as u32,
            slice_height: draft.geometry.slice_height / sy,
            family: Family::Gray,
            sx: 1,
            sy: 1,
            ..draft.geometry
        },
        lengths: vec![draft.lengths[plane].clone()],
        order: vec![0; slices.len()],
        slices,
        ..draft.clone()
    }
}

/// All planes from the Rust, or none where it refuses one of them.
fn by_planes(draft: &Draft) -> Option<Vec<u16>> {
    let mut picture = Vec::new();
    for plane in 0..draft.lengths.len() {
        match rust_side::decode(&plane_alone(draft, plane).bytes()) {
            Said::Planes(samples) => picture.extend(samples),
            _ => return None,
        }
    }
    Some(picture)
}

impl Comparison {
    /// Ours must accept exactly when the Rust accepts every plane, with the same samples; the refusal
    /// and its place must be document 01's.
    pub fn split(&mut self, draft: &Draft, seed: u64) -> Result<(), String> {
        let (bytes, lengths) = (draft.bytes(), draft.lengths.concat());
        let lent = Lent {
            entry: entry_of(draft.geometry.depth),
            frame: &bytes,
            lengths: &lengths,
            samples: draft.geometry.samples(),
            words: model::needs(&lengths, draft.geometry.depth).unwrap_or(3),
            numbers: draft.geometry.numbers(),
        };
        let answer = self.by_document(&lent, seed)?;
        self.tally.split[answer.number() as usize] += 1;
        self.tally.never.frame(&lent, self.leave_out)?;
        if lengths.iter().any(|l| *l > draft.format.cap()) {
            self.tally.outside("a length above the Rust's cap, by planes");
            return Ok(());
        }
        let theirs = by_planes(draft);
        if (answer == Answer::Planes) != theirs.is_some() {
            return Err(format!("ours {answer}, the Rust's planes: {}", theirs.is_some()));
        }
        match theirs {
            Some(picture) => self.pictured(&lent, seed, &picture),
            None => Ok(()),
        }
    }
}
