//! Damage to a frame's bytes: every boundary of document 01's layout one short and one over, cuts, and
//! plain noise.

use crate::rng::Rng;
use magicyuv_host::formats::FORMATS;
use magicyuv_host::Geometry;

/// Where things stand in a frame that its geometry describes.
struct Marks {
    slices: usize,
    planes: usize,
    preamble: usize,
}

impl Marks {
    fn of(geometry: &Geometry) -> Marks {
        let slices = geometry.slices();
        Marks { slices, planes: geometry.family.planes(), preamble: 32 + 4 * (slices + 1) }
    }
}

fn put_word(bytes: &mut [u8], at: usize, value: u32) {
    if let Some(place) = bytes.get_mut(at..at + 4) {
        place.copy_from_slice(&value.to_le_bytes());
    }
}

fn word(bytes: &[u8], at: usize) -> u32 {
    bytes.get(at..at + 4).map_or(0, |b| u32::from_le_bytes([b[0], b[1], b[2], b[3]]))
}

fn put_byte(bytes: &mut [u8], at: usize, value: u8) {
    if let Some(place) = bytes.get_mut(at) {
        *place = value;
    }
}

/// Damages a frame in one way.
pub fn once(rng: &mut Rng, bytes: &mut Vec<u8>, geometry: &Geometry) {
    let marks = Marks::of(geometry);
    match rng.below(13) {
        0 => cut(rng, bytes),
        1 => cut_near(rng, bytes, &marks),
        2 => {
            let more = rng.between(1, 4);
            bytes.extend(rng.bytes(more));
        }
        3 => first_entry(rng, bytes, &marks),
        4 => later_entry(rng, bytes, &marks),
        5 => {
            let value = if rng.chance(60) { marks.planes as u8 + 1 } else { rng.byte() };
            put_byte(bytes, marks.preamble, value);
        }
        6 => index(rng, bytes, &marks),
        7 => prefix(rng, bytes, &marks),
        8 => size_field(rng, bytes),
        9 => header_byte(rng, bytes),
        10 => descriptor_byte(rng, bytes, &marks),
        11 => payload_byte(rng, bytes),
        _ => some_bytes(rng, bytes),
    }
}

fn cut(rng: &mut Rng, bytes: &mut Vec<u8>) {
    let to = if rng.chance(50) {
        bytes.len() - rng.between(1, bytes.len().min(6))
    } else {
        rng.below(bytes.len())
    };
    bytes.truncate(to);
}

/// Cuts one before, at or one past the table's end, the count byte, the indices' end or the
/// preamble's end.
fn cut_near(rng: &mut Rng, bytes: &mut Vec<u8>, marks: &Marks) {
    let ends = [
        32,
        marks.preamble,
        marks.preamble + 1,
        marks.preamble + 1 + marks.slices,
        32 + word(bytes, 36) as usize,
    ];
    let to = rng.pick(&ends) + rng.below(3);
    bytes.truncate(to.saturating_sub(1));
}

/// Sets entry 1 around the preamble's start, around its least size, or anywhere.
fn first_entry(rng: &mut Rng, bytes: &mut [u8], marks: &Marks) {
    let start = marks.preamble as u32 - 32;
    let value = match rng.below(6) {
        0 => start + rng.below(3) as u32 - 1,
        1 => start + marks.slices as u32 + rng.below(3) as u32,
        2 => bytes.len() as u32 + rng.below(3) as u32 - 33,
        3 => word(bytes, 36).wrapping_add(rng.below(3) as u32).wrapping_sub(1),
        4 => rng.pick(&[0, u32::MAX, u32::MAX - 31, u32::MAX - 32, 1 << 31]),
        _ => rng.next() as u32 % (bytes.len() as u32 + 1),
    };
    put_word(bytes, 36, value);
}

fn later_entry(rng: &mut Rng, bytes: &mut [u8], marks: &Marks) {
    let at = 32 + 4 * rng.between(0, marks.slices);
    let old = word(bytes, at);
    let before = word(bytes, at.saturating_sub(4));
    let value = match rng.below(7) {
        0 => old.wrapping_add(1),
        1 => old.wrapping_sub(1),
        2 => before.wrapping_add(rng.below(5) as u32).wrapping_sub(1),
        3 => bytes.len() as u32 + rng.below(4) as u32 - 34,
        4 => rng.pick(&[0, u32::MAX, u32::MAX - 31, u32::MAX - 32, 1 << 31]),
        5 => old.wrapping_add(rng.below(9) as u32).wrapping_sub(4),
        _ => rng.next() as u32 % (bytes.len() as u32 + 1),
    };
    put_word(bytes, at, value);
}

fn index(rng: &mut Rng, bytes: &mut [u8], marks: &Marks) {
    let at = marks.preamble + 1 + rng.below(marks.slices);
    let value = match rng.below(4) {
        0 => marks.planes as u8,
        1 => rng.byte(),
        _ => rng.below(marks.planes) as u8,
    };
    put_byte(bytes, at, value);
}

/// Changes a slice's flag or predictor byte.
fn prefix(rng: &mut Rng, bytes: &mut [u8], marks: &Marks) {
    let slice = rng.below(marks.slices);
    let start = 32 + word(bytes, 36 + 4 * slice) as usize;
    if rng.chance(40) {
        let old = bytes.get(start).copied().unwrap_or(0);
        put_byte(bytes, start, old ^ rng.pick(&[1, 1, 2, 0x80, 0xff]));
    } else {
        let value = rng.pick(&[0, 1, 2, 3, 4, 5, 128, 255]);
        put_byte(bytes, start + 1, value);
    }
}

/// Changes width, height or slice height.
fn size_field(rng: &mut Rng, bytes: &mut [u8]) {
    let at = rng.pick(&[16, 20, 28]);
    let old = word(bytes, at);
    let value = match rng.below(8) {
        0 => old.wrapping_add(1),
        1 => old.wrapping_sub(1),
        2 => old * 2,
        3 => rng.pick(&[0, 16_383, 16_384, 16_385, 32_767, 32_768, 32_769, u32::MAX]),
        4 => 1,
        _ => rng.between(1, 12) as u32,
    };
    put_word(bytes, at, value);
}

/// Changes a header byte; often to another format with its own byte 10.
fn header_byte(rng: &mut Rng, bytes: &mut [u8]) {
    match rng.below(4) {
        0 => {
            let format = rng.pick(&FORMATS);
            put_byte(bytes, 9, format.byte);
            put_byte(bytes, 10, format.cap());
        }
        1 => put_byte(bytes, 12, rng.byte()),
        2 => put_byte(bytes, rng.pick(&[8, 11, 13, 14, 15, 24, 25]), rng.byte()),
        _ => put_byte(bytes, rng.below(16), rng.byte()),
    }
}

fn descriptor_byte(rng: &mut Rng, bytes: &mut [u8], marks: &Marks) {
    let from = marks.preamble + 1 + marks.slices;
    let to = (32 + word(bytes, 36) as usize).min(bytes.len());
    if from >= to {
        return;
    }
    let at = from + rng.below(to - from);
    let value = match rng.below(3) {
        0 => rng.between(0, 20) as u8,
        1 => 128 + rng.between(0, 20) as u8,
        _ => rng.byte(),
    };
    put_byte(bytes, at, value);
}

/// Changes some bytes after the preamble.
fn payload_byte(rng: &mut Rng, bytes: &mut [u8]) {
    let from = (32 + word(bytes, 36) as usize).min(bytes.len());
    for _ in 0..rng.between(1, 4) {
        if from < bytes.len() {
            let at = from + rng.below(bytes.len() - from);
            bytes[at] ^= rng.byte();
        }
    }
}

fn some_bytes(rng: &mut Rng, bytes: &mut [u8]) {
    for _ in 0..rng.between(1, 4) {
        if !bytes.is_empty() {
            let at = rng.below(bytes.len());
            bytes[at] ^= 1 << rng.below(8);
        }
    }
}
