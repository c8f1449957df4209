//! Samples from residues, slice by slice and in place, and G added to B' and R' (document 01,
//! "Prediction").
//!
//! Sums are kept as 32-bit numbers that wrap, and only what is stored is cut to 2^depth: the chain from
//! one sample to the next is what these loops wait for.

use crate::sample::Sample;
use crate::shape::{Plane, Shape};

/// The three predictors.
#[derive(Clone, Copy)]
pub enum Predictor {
    /// 1.
    Left,
    /// 2.
    Gradient,
    /// 3.
    Median,
}

impl Predictor {
    /// The predictor of a byte.
    pub fn of(byte: u8) -> Option<Predictor> {
        match byte {
            1 => Some(Predictor::Left),
            2 => Some(Predictor::Gradient),
            3 => Some(Predictor::Median),
            _ => None,
        }
    }
}

/// Turns one slice's residues into samples. The first rows of each field have nothing above them.
pub fn rebuild<S: Sample>(predictor: Predictor, rows: &mut [S], width: usize, shape: &Shape) {
    let (mask, pitch) = (shape.mask(), shape.fields * width);
    let heads = pitch.min(rows.len());
    for row in rows[..heads].chunks_exact_mut(width) {
        left_row(row, S::default(), mask);
    }
    for at in (heads..rows.len()).step_by(width) {
        let (above, below) = rows.split_at_mut(at);
        let above = &above[at - pitch..][..width];
        let row = &mut below[..width];
        match predictor {
            Predictor::Left => left_row(row, above[0], mask),
            Predictor::Gradient => gradient_row(row, above, mask),
            Predictor::Median => median_row(row, above, mask),
        }
    }
}

/// Adds `first` to column 0 and the left sample to every other.
fn left_row<S: Sample>(row: &mut [S], first: S, mask: u32) {
    let mut left = first.value();
    for sample in row {
        left = left.wrapping_add(sample.value());
        *sample = S::modulo(left, mask);
    }
}

/// Left and top-left count as 0 in column 0, where the gradient is then top alone.
fn gradient_row<S: Sample>(row: &mut [S], above: &[S], mask: u32) {
    let (mut left, mut top_left) = (0u32, 0u32);
    for (sample, top) in row.iter_mut().zip(above) {
        let top = top.value();
        left = left.wrapping_add(sample.value().wrapping_add(top).wrapping_sub(top_left));
        *sample = S::modulo(left, mask);
        top_left = top;
    }
}

/// Left and top-left count as 0 in column 0, where either Median is then top alone.
fn median_row<S: Sample>(row: &mut [S], above: &[S], mask: u32) {
    let (mut left, mut top_left) = (0, 0);
    for (sample, top) in row.iter_mut().zip(above) {
        let top = top.value();
        *sample = S::modulo(S::median(left, top, top_left) + sample.value(), mask);
        (left, top_left) = (sample.value(), top);
    }
}

/// Rgb and Rgba: B and R are B'+G and R'+G. The buffer holds G, B, R, (A), each as large as `plane`.
pub fn add_green<S: Sample>(planes: &mut [S], plane: &Plane, mask: u32) {
    let (green, others) = planes.split_at_mut(plane.samples());
    for other in others.chunks_exact_mut(plane.samples()).take(2) {
        for (sample, green) in other.iter_mut().zip(&*green) {
            *sample = S::modulo(sample.value() + green.value(), mask);
        }
    }
}
