//! The small end, exhaustively: short codes with every one-byte payload, every flag and predictor
//! byte, every slice order of a small frame, predictors on corner values, every cut and every changed
//! byte of small frames; and the large end of the sizes.

use crate::draft::{BitWriter, Draft};
use crate::frame_check::Comparison;
use crate::known_frames::{frame, geometry};
use crate::run::Differences;
use magicyuv_host::formats::{Format, FORMATS};
use magicyuv_host::Family;

/// Runs all of it.
pub fn all(c: &mut Comparison, found: &mut Differences) {
    short_codes(c, found);
    three_lengths(c, found);
    prefix_bytes(c, found);
    slice_orders(c, found);
    corner_residues(c, found);
    every_cut(c, found);
    every_byte(c, found);
    large(c, found);
}

/// The format of a family, factors and depth.
pub fn format(family: Family, sx: u32, sy: u32, depth: u32) -> Format {
    let fits = |f: &&Format| (f.family, f.sx, f.sy, f.depth) == (family, sx, sy, depth);
    *FORMATS.iter().find(fits).expect("the format exists")
}

/// Every list of `count` digits below `base`.
fn lists(count: usize, base: u8) -> impl Iterator<Item = Vec<u8>> {
    let total = (base as usize).pow(count as u32);
    (0..total).map(move |mut index| {
        let mut list = vec![0u8; count];
        for digit in list.iter_mut() {
            *digit = (index % base as usize) as u8;
            index /= base as usize;
        }
        list
    })
}

/// Up to four symbols with lengths 0 to 4: every one-byte payload and the empty one, 0 to 9 samples.
fn short_codes(c: &mut Comparison, found: &mut Differences) {
    for lengths in (0..=4).flat_map(|count| lists(count, 5)) {
        found.alone(&lengths, &[], 0, c.table(&lengths, 1));
        for byte in 0..=256usize {
            let payload = if byte == 256 { vec![] } else { vec![byte as u8] };
            for n in [0, 1, 2, 3, 5, 8, 9] {
                found.alone(
                    &lengths,
                    &payload,
                    n,
                    c.reading(&lengths, &payload, n, 0, byte as u64),
                );
            }
        }
    }
}

/// Every three lengths from 0 to 18: the tables, with lookups.
fn three_lengths(c: &mut Comparison, found: &mut Differences) {
    for lengths in lists(3, 19) {
        found.alone(&lengths, &[], 0, c.table(&lengths, 2));
        let payload = [0x00, 0x01, 0x80];
        found.alone(&lengths, &payload, 0, c.lookups(&lengths, &payload, 3));
    }
}

/// A one-sample frame with every flag byte and every predictor byte.
fn prefix_bytes(c: &mut Comparison, found: &mut Differences) {
    let gray = format(Family::Gray, 1, 1, 8);
    let mut draft = frame(&gray, geometry(&gray, 1, 1, 1), &[1, 2]);
    draft.slices[0].payload = vec![0b1000_0000];
    for code in 0..=u16::MAX {
        [draft.slices[0].flag, draft.slices[0].predictor] = code.to_le_bytes();
        found.frame(c, &draft.bytes(), u64::from(code));
    }
}

/// Rgb with two slices a plane: every list of six indices from 0 to 3.
fn slice_orders(c: &mut Comparison, found: &mut Differences) {
    let rgb = format(Family::Rgb, 1, 1, 8);
    let mut draft = frame(&rgb, geometry(&rgb, 1, 2, 1), &[]);
    for (i, order) in lists(6, 4).enumerate() {
        draft.order = order;
        found.frame(c, &draft.bytes(), i as u64);
    }
}

/// Two columns and three rows of corner values, each predictor, progressive and in two fields, by
/// the clamp (depth 8) and by T.87 (depth 10).
fn corner_residues(c: &mut Comparison, found: &mut Differences) {
    for depth in [8, 10] {
        let gray = format(Family::Gray, 1, 1, depth);
        let top = (1u32 << depth) - 1;
        let corners = [0, 1, top / 2 + 1, top];
        let mut draft = frame(&gray, geometry(&gray, 2, 3, 3), &[]);
        for picks in lists(6, 4) {
            let mut writer = BitWriter::default();
            picks.iter().for_each(|p| writer.put(corners[*p as usize], depth));
            draft.slices[0].payload = writer.done();
            for way in 0..6u8 {
                draft.slices[0].predictor = 1 + way / 2;
                draft.geometry.interlaced = way % 2 == 1;
                found.frame(c, &draft.bytes(), u64::from(way));
            }
        }
    }
}

/// Small frames of every format, coded and raw.
pub fn of_every_format() -> Vec<Draft> {
    let mut out = Vec::new();
    for format in &FORMATS {
        let (sx, sy) = (format.sx, format.sy);
        out.push(frame(format, geometry(format, 2 * sx, 3 * sy, 2 * sy), &[1, 2, 2]));
        out.push(frame(format, geometry(format, sx, 2 * sy, sy), &[]));
    }
    out
}

/// Every cut of a frame of every format.
fn every_cut(c: &mut Comparison, found: &mut Differences) {
    for draft in of_every_format() {
        let bytes = draft.bytes();
        for end in 0..=bytes.len() {
            found.frame(c, &bytes[..end], end as u64);
        }
    }
}

/// Every value of every byte of some small frames.
fn every_byte(c: &mut Comparison, found: &mut Differences) {
    let gray = format(Family::Gray, 1, 1, 8);
    let yuv = format(Family::Yuv, 2, 2, 8);
    let deep = format(Family::Gray, 1, 1, 10);
    let drafts = [
        frame(&gray, geometry(&gray, 2, 2, 1), &[]),
        frame(&yuv, geometry(&yuv, 2, 2, 2), &[1, 2, 2]),
        frame(&deep, geometry(&deep, 2, 1, 1), &[2, 2, 2]),
    ];
    for draft in drafts {
        let bytes = draft.bytes();
        for at in 0..bytes.len() {
            let mut changed = bytes.clone();
            for value in 0..=255u8 {
                changed[at] = value;
                found.frame(c, &changed, u64::from(value));
            }
        }
    }
}

/// One row, one column and the largest counts of slices; one past them by the header.
fn large(c: &mut Comparison, found: &mut Differences) {
    let rgba = format(Family::Rgba, 1, 1, 8);
    let gray = format(Family::Gray, 1, 1, 14);
    let yuv = format(Family::Yuv, 2, 2, 8);
    let frames = [
        frame(&rgba, geometry(&rgba, 1, 16_384, 1), &[]),
        frame(&rgba, geometry(&rgba, 16_384, 1, 16_384), &[1, 2, 2]),
        frame(&gray, geometry(&gray, 16_384, 1, 1), &[18, 1, 2]),
        frame(&yuv, geometry(&yuv, 2, 16_384, 2), &[2, 2, 2]),
        frame(&yuv, geometry(&yuv, 16_384, 16, 8), &[]),
    ];
    for draft in frames {
        let bytes = draft.bytes();
        found.frame(c, &bytes, 5);
        found.frame(c, &bytes[..bytes.len() - 1], 6);
        for at in [16, 20, 28] {
            let mut wider = bytes.clone();
            wider[at..at + 4].copy_from_slice(&16_385u32.to_le_bytes());
            found.frame(c, &wider, at as u64);
        }
    }
}

/// The largest plane and the most samples of a reading by itself, with one more refused. Some
/// gigabytes of memory; run only when asked for.
pub fn largest(c: &mut Comparison, found: &mut Differences) {
    const MOST: usize = 268_435_456;
    let gray = format(Family::Gray, 1, 1, 8);
    let draft = frame(&gray, geometry(&gray, 16_384, 16_384, 16_384), &[1, 1]);
    found.frame(c, &draft.bytes(), 0);
    drop(draft);
    found.alone(&[1, 1], &[0x55], MOST, c.reading(&[1, 1], &[0x55], MOST, 0, 4));
    found.alone(&[1, 1], &[0x55], MOST + 1, one_too_many(MOST + 1));
}

/// One sample more than the largest plane: 4, before 9 to 11, and everything as found.
fn one_too_many(n: usize) -> Result<(), String> {
    let mut samples = vec![0u16; n];
    for (lengths, words) in [(&[1u8, 1][..], 2), (&[19], 2), (&[1, 1, 1], 2), (&[1, 1], 1)] {
        let mut workspace = vec![7u32; words];
        let answer = magicyuv_host::read(lengths, &[0x55], &mut workspace, &mut samples);
        let as_found = workspace.iter().all(|w| *w == 7) && samples.iter().all(|s| *s == 0);
        if answer != magicyuv_host::Answer::refused(4) || !as_found {
            return Err(format!("{answer} for {n} samples, or memory not as found"));
        }
    }
    Ok(())
}
