//! The geometry of document 01, and refusals 1 to 4.

use crate::refuse_if;
use crate::sample::Sample;
use magicyuv_host::{Answer, Numbers, Place};
use std::ops::Range;

/// One plane's figures.
#[derive(Clone, Copy, Default)]
pub struct Plane {
    /// Samples across.
    pub width: usize,
    /// Rows.
    pub height: usize,
    /// Rows of a place, before the cut at the plane's height.
    pub slice_height: usize,
    /// Where the plane begins in the plane buffer.
    pub offset: usize,
}

impl Plane {
    /// The plane's sample count.
    pub fn samples(&self) -> usize {
        self.width * self.height
    }

    /// Where the rows of place k stand in the plane buffer.
    pub fn stretch(&self, place: usize) -> Range<usize> {
        let first = place * self.slice_height;
        let end = (first + self.slice_height).min(self.height);
        self.offset + first * self.width..self.offset + end * self.width
    }
}

/// A geometry that passed refusals 1 to 4.
pub struct Shape {
    /// In wire order; the first `count` are there.
    planes: [Plane; 4],
    count: usize,
    /// K, the slices of a plane.
    pub bands: usize,
    /// 8, 10, 12 or 14.
    pub depth: u32,
    /// 2 if interlaced, else 1.
    pub fields: usize,
    /// Rgb or Rgba.
    pub decorrelated: bool,
}

/// P by family number; 0 where there is no such family.
fn plane_count(family: u32) -> usize {
    match family {
        0 => 1,
        1 | 2 => 3,
        3 | 4 => 4,
        _ => 0,
    }
}

/// Yuv and Yuva.
fn has_factors(family: u32) -> bool {
    family == 2 || family == 4
}

/// The rules of refusal 1.
fn within_rules<S: Sample>(n: &Numbers) -> bool {
    let size = |x: u32| (1..=16_384).contains(&x);
    let factor = |x: u32| x == 1 || (x == 2 && has_factors(n.family));
    size(n.width)
        && size(n.height)
        && size(n.slice_height)
        && plane_count(n.family) > 0
        && factor(n.sx)
        && factor(n.sy)
        && S::takes(n.depth)
        && n.interlaced <= 1
}

impl Shape {
    /// The shape of some numbers with so many lengths and samples lent, or refusal 1 to 4.
    pub fn of<S: Sample>(n: &Numbers, lengths: usize, samples: usize) -> Result<Shape, Answer> {
        refuse_if(!within_rules::<S>(n), 1, Place::Nothing)?;
        // A factor is 1 or 2.
        let odd = |size: u32, factor: u32| size % factor == 1;
        refuse_if(odd(n.width, n.sx) || odd(n.height, n.sy), 2, Place::Nothing)?;
        refuse_if(odd(n.slice_height, n.sy), 3, Place::Nothing)?;
        let shape = Shape {
            planes: planes(n),
            count: plane_count(n.family),
            bands: n.height.div_ceil(n.slice_height) as usize,
            depth: n.depth,
            fields: n.interlaced as usize + 1,
            decorrelated: n.family == 1 || n.family == 3,
        };
        let wanted: usize = shape.planes().iter().map(Plane::samples).sum();
        let wrong = lengths != shape.count << shape.depth || samples != wanted;
        refuse_if(wrong, 4, Place::Nothing)?;
        Ok(shape)
    }

    /// The planes in wire order.
    pub fn planes(&self) -> &[Plane] {
        &self.planes[..self.count]
    }

    /// T = P·K.
    pub fn slices(&self) -> usize {
        self.count * self.bands
    }

    /// 2^depth - 1.
    pub fn mask(&self) -> u32 {
        (1 << self.depth) - 1
    }
}

/// The planes one after another: planes 1 and 2 of Yuv and Yuva are divided by the factors; Rgb and Rgba
/// come as B', G, R', (A) and stand as G, B, R, (A).
fn planes(n: &Numbers) -> [Plane; 4] {
    let mut planes = [Plane::default(); 4];
    let mut offset = 0;
    for (p, plane) in planes.iter_mut().enumerate() {
        let reduced = has_factors(n.family) && (p == 1 || p == 2);
        let (sx, sy) = if reduced { (n.sx, n.sy) } else { (1, 1) };
        plane.width = (n.width / sx) as usize;
        plane.height = (n.height / sy) as usize;
        plane.slice_height = (n.slice_height / sy) as usize;
        plane.offset = offset;
        offset += plane.samples();
    }
    if !has_factors(n.family) && plane_count(n.family) > 1 {
        let [first, second, ..] = &mut planes;
        std::mem::swap(&mut first.offset, &mut second.offset);
    }
    planes
}
