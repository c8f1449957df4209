//! The geometry of document 01 and refusals 1 to 4.

use super::{refuse_if, Entry, Refusal};
use crate::{Numbers, Place};

/// One plane's figures, in wire order.
#[derive(Clone, Copy, Debug, PartialEq, Eq)]
pub struct Plane {
    /// Samples across.
    pub width: usize,
    /// Rows.
    pub height: usize,
    /// Rows of a place, before the cut at the plane's height.
    pub slice_height: usize,
}

impl Plane {
    /// Rows that place k covers: from k times the slice height, cut at the plane's height.
    pub fn rows(&self, place: usize) -> std::ops::Range<usize> {
        let from = (place * self.slice_height).min(self.height);
        from..(from + self.slice_height).min(self.height)
    }
}

/// A geometry that passed refusals 1, 2 and 3.
#[derive(Clone, Debug, PartialEq, Eq)]
pub struct Shape {
    /// The planes in wire order; their count is P.
    pub planes: Vec<Plane>,
    /// K, slices of a plane.
    pub bands: usize,
    /// 8, 10, 12 or 14.
    pub depth: u32,
    /// Two fields.
    pub interlaced: bool,
    /// Rgb or Rgba.
    pub decorrelated: bool,
}

/// P by family number; 0 where there is no such family.
fn plane_count(family: u32) -> usize {
    match family {
        0 => 1,
        1 | 2 => 3,
        3 | 4 => 4,
        _ => 0,
    }
}

fn has_factors(family: u32) -> bool {
    family == 2 || family == 4
}

/// The rules of refusal 1.
fn within_rules(entry: Entry, n: &Numbers) -> bool {
    let size = |x: u32| (1..=16_384).contains(&x);
    let factor = |x: u32| x == 1 || (x == 2 && has_factors(n.family));
    let depth = match entry {
        Entry::Eight => n.depth == 8,
        Entry::Sixteen => n.depth == 10 || n.depth == 12 || n.depth == 14,
    };
    size(n.width)
        && size(n.height)
        && size(n.slice_height)
        && plane_count(n.family) > 0
        && factor(n.sx)
        && factor(n.sy)
        && depth
        && n.interlaced <= 1
}

impl Shape {
    /// The shape of some numbers, or refusal 1, 2 or 3.
    pub fn of(entry: Entry, n: &Numbers) -> Result<Shape, Refusal> {
        refuse_if(!within_rules(entry, n), 1, Place::Nothing)?;
        refuse_if(n.width % n.sx != 0 || n.height % n.sy != 0, 2, Place::Nothing)?;
        refuse_if(n.slice_height % n.sy != 0, 3, Place::Nothing)?;
        Ok(Shape {
            planes: (0..plane_count(n.family)).map(|p| plane(n, p)).collect(),
            bands: n.height.div_ceil(n.slice_height) as usize,
            depth: n.depth,
            interlaced: n.interlaced == 1,
            decorrelated: n.family == 1 || n.family == 3,
        })
    }

    /// Refusal 4: what is lent must have the exact sizes.
    pub fn lent(&self, lengths: usize, samples: usize) -> Result<(), Refusal> {
        let wrong = lengths != self.planes.len() << self.depth || samples != self.samples();
        refuse_if(wrong, 4, Place::Nothing)
    }

    /// All planes' samples.
    pub fn samples(&self) -> usize {
        self.planes.iter().map(|p| p.width * p.height).sum()
    }

    /// T = P·K.
    pub fn slices(&self) -> usize {
        self.planes.len() * self.bands
    }
}

/// Planes 1 and 2 of Yuv and Yuva are divided by the factors; all others have the full figures.
fn plane(n: &Numbers, p: usize) -> Plane {
    let reduced = has_factors(n.family) && (p == 1 || p == 2);
    let (sx, sy) = if reduced { (n.sx, n.sy) } else { (1, 1) };
    Plane {
        width: (n.width / sx) as usize,
        height: (n.height / sy) as usize,
        slice_height: (n.slice_height / sy) as usize,
    }
}
