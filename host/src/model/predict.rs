//! Prediction, slice by slice, and the order of planes in the buffer (document 01, "Prediction").

use super::shape::Shape;

/// The three predictors.
#[derive(Clone, Copy, Debug, PartialEq, Eq)]
pub enum Predictor {
    /// 1.
    Left,
    /// 2.
    Gradient,
    /// 3.
    Median,
}

impl Predictor {
    /// The predictor of a byte.
    pub fn of(byte: u8) -> Option<Predictor> {
        match byte {
            1 => Some(Predictor::Left),
            2 => Some(Predictor::Gradient),
            3 => Some(Predictor::Median),
            _ => None,
        }
    }

    /// The prediction from the neighbours.
    pub fn of_neighbours(self, left: u16, top: u16, top_left: u16, depth: u32) -> u16 {
        match self {
            Predictor::Left => left,
            Predictor::Gradient => gradient(left, top, top_left, depth),
            Predictor::Median if depth == 8 => {
                gradient(left, top, top_left, depth).clamp(left.min(top), left.max(top))
            }
            Predictor::Median => median(left, top, top_left),
        }
    }
}

/// left + top - top-left modulo 2^depth.
fn gradient(left: u16, top: u16, top_left: u16, depth: u32) -> u16 {
    let exact = i32::from(left) + i32::from(top) - i32::from(top_left);
    exact.rem_euclid(1 << depth) as u16
}

/// T.87: top-left at least the larger gives the smaller, else at most the smaller gives the larger,
/// else the exact left + top - top-left.
fn median(left: u16, top: u16, top_left: u16) -> u16 {
    let (lo, hi) = (left.min(top), left.max(top));
    if top_left >= hi {
        lo
    } else if top_left <= lo {
        hi
    } else {
        (i32::from(left) + i32::from(top) - i32::from(top_left)) as u16
    }
}

/// Sum modulo 2^depth.
fn add(a: u16, b: u16, depth: u32) -> u16 {
    ((u32::from(a) + u32::from(b)) % (1 << depth)) as u16
}

/// Turns a slice's residues into samples, in place.
pub fn rebuild(kind: Predictor, band: &mut [u16], width: usize, depth: u32, interlaced: bool) {
    let fields = if interlaced { 2 } else { 1 };
    for at in 0..band.len() {
        let (row, column) = (at / width, at % width);
        let predicted = match (row < fields, column) {
            (true, 0) => 0,
            (true, _) => band[at - 1],
            (false, 0) => band[at - fields * width],
            (false, _) => {
                let top = at - fields * width;
                kind.of_neighbours(band[at - 1], band[top], band[top - 1], depth)
            }
        };
        band[at] = add(band[at], predicted, depth);
    }
}

/// Rgb and Rgba: B' and R' get G added, and the buffer holds G, B, R, (A). Others keep wire order.
pub fn in_buffer_order(shape: &Shape, mut wire: Vec<Vec<u16>>) -> Vec<u16> {
    if shape.decorrelated {
        let green = wire[1].clone();
        for plane in [0, 2] {
            let sums = wire[plane].iter().zip(&green).map(|(s, g)| add(*s, *g, shape.depth));
            wire[plane] = sums.collect();
        }
        wire.swap(0, 1);
    }
    wire.concat()
}
