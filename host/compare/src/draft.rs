//! Frames before they are bytes: geometry, lengths, slice order and payloads of document 01's layout.

use crate::codes::{self, Kind};
use crate::rng::Rng;
use magicyuv_host::container::header_bytes;
use magicyuv_host::descriptors;
use magicyuv_host::formats::{Format, FORMATS};
use magicyuv_host::model::words::Code;
use magicyuv_host::Geometry;

/// One slice.
#[derive(Clone, Debug)]
pub struct Slice {
    /// The flag byte.
    pub flag: u8,
    /// The predictor byte.
    pub predictor: u8,
    /// What follows.
    pub payload: Vec<u8>,
}

/// A whole frame.
#[derive(Clone, Debug)]
pub struct Draft {
    /// Its format byte's row.
    pub format: Format,
    /// Its geometry.
    pub geometry: Geometry,
    /// Lengths of each plane.
    pub lengths: Vec<Vec<u8>>,
    /// The plane that each slice names, in wire order.
    pub order: Vec<u8>,
    /// The slices in wire order.
    pub slices: Vec<Slice>,
    /// Preamble bytes after the descriptors.
    pub trailing: Vec<u8>,
    /// Entry 0, which nobody reads.
    pub entry0: u32,
    /// From how many equal lengths on a descriptor uses a run.
    pub shortest_run: usize,
}

/// A writer of bits, highest bit first.
#[derive(Default)]
pub struct BitWriter {
    bytes: Vec<u8>,
    used: usize,
}

impl BitWriter {
    /// Appends the low `count` bits of a value.
    pub fn put(&mut self, value: u32, count: u32) {
        for i in (0..count).rev() {
            if self.used % 8 == 0 {
                self.bytes.push(0);
            }
            let bit = (value >> i & 1) as u8;
            self.bytes[self.used / 8] |= bit << (7 - self.used % 8);
            self.used += 1;
        }
    }

    /// The bytes; unused last bits are zero.
    pub fn done(self) -> Vec<u8> {
        self.bytes
    }
}

impl Draft {
    /// The frame as bytes, slices without gaps from the preamble's end.
    pub fn bytes(&self) -> Vec<u8> {
        let preamble = self.preamble();
        let mut out = header_bytes(&self.format, &self.geometry).to_vec();
        out.extend(self.entry0.to_le_bytes());
        let mut entry = 4 * (self.slices.len() + 1) + preamble.len();
        for slice in &self.slices {
            out.extend((entry as u32).to_le_bytes());
            entry += 2 + slice.payload.len();
        }
        out.extend(preamble);
        for slice in &self.slices {
            out.extend([slice.flag, slice.predictor]);
            out.extend(&slice.payload);
        }
        out
    }

    fn preamble(&self) -> Vec<u8> {
        let mut out = vec![self.lengths.len() as u8];
        out.extend(&self.order);
        for lengths in &self.lengths {
            out.extend(descriptors::write(lengths, self.shortest_run));
        }
        out.extend(&self.trailing);
        out
    }
}

/// The planes in wire order that each slice names, plane after plane.
pub fn plane_major(geometry: &Geometry) -> Vec<u8> {
    let planes = geometry.family.planes() as u8;
    (0..planes).flat_map(|p| std::iter::repeat(p).take(geometry.bands())).collect()
}

/// Samples of the k-th slice of a plane.
pub fn slice_samples(geometry: &Geometry, plane: usize, place: usize) -> usize {
    let (width, height) = geometry.plane_size(plane);
    let reduced = geometry.family.has_factors() && (plane == 1 || plane == 2);
    let factor = if reduced { geometry.sy } else { 1 };
    let rows = (geometry.slice_height / factor) as usize;
    width * rows.min(height.saturating_sub(place * rows))
}

/// A random format and sizes that suit it, small ones most often.
pub fn geometry(rng: &mut Rng) -> (Format, Geometry) {
    let format = rng.pick(&FORMATS);
    let size = |rng: &mut Rng| match rng.below(10) {
        0 | 1 => 1,
        2..=7 => rng.between(1, 8),
        8 => rng.between(1, 20),
        _ => rng.between(1, 40),
    };
    let (width, height) = (size(rng) * format.sx as usize, size(rng) * format.sy as usize);
    let (sx, sy) = (format.sx as usize, format.sy as usize);
    let slice = match rng.below(4) {
        0 => height,
        1 => sy,
        2 => sy * rng.between(1, height.div_ceil(sy)),
        _ => sy * rng.between(1, height.div_ceil(sy) + 2),
    };
    let spoil = rng.chance(2);
    let slip = |rng: &mut Rng, n: usize, by: usize| {
        if spoil && by > 1 && rng.chance(50) {
            n + 1
        } else {
            n
        }
    };
    let geometry = Geometry {
        width: slip(rng, width, sx) as u32,
        height: slip(rng, height, sy) as u32,
        slice_height: slip(rng, slice, sy) as u32,
        family: format.family,
        sx: format.sx,
        sy: format.sy,
        depth: format.depth,
        interlaced: rng.chance(35),
    };
    (format, geometry)
}

/// A random frame. `soundness` is the percentage of frames in which nothing is bent on purpose.
pub fn random(rng: &mut Rng, soundness: usize) -> Draft {
    let (format, geometry) = geometry(rng);
    of_geometry(rng, format, geometry, soundness)
}

/// A random frame of some geometry.
pub fn of_geometry(rng: &mut Rng, format: Format, geometry: Geometry, soundness: usize) -> Draft {
    let sound = rng.chance(soundness);
    let lengths = plane_lengths(rng, &format, &geometry, if sound { 0 } else { 25 });
    let mut order = plane_major(&geometry);
    if rng.chance(60) {
        shuffle(rng, &mut order);
    }
    let slices = slices(rng, &geometry, &lengths, &order, sound);
    Draft {
        format,
        geometry,
        lengths,
        order,
        slices,
        trailing: if rng.chance(10) {
            let n = rng.between(1, 5);
            rng.bytes(n)
        } else {
            vec![]
        },
        entry0: if rng.chance(50) { rng.next() as u32 } else { 0 },
        shortest_run: rng.pick(&[1, 2, 3, 3, 5]),
    }
}

fn plane_lengths(rng: &mut Rng, format: &Format, geometry: &Geometry, rare: usize) -> Vec<Vec<u8>> {
    let n = 1usize << geometry.depth;
    let same = rng.chance(30);
    let mut out: Vec<Vec<u8>> = Vec::new();
    for plane in 0..geometry.family.planes() {
        if same && plane > 0 {
            out.push(out[0].clone());
            continue;
        }
        let kind = if rng.chance(12) { Kind::Empty } else { codes::kind(rng, rare) };
        out.push(codes::lengths(rng, n, format.cap(), kind));
    }
    out
}

fn shuffle(rng: &mut Rng, order: &mut [u8]) {
    for i in (1..order.len()).rev() {
        order.swap(i, rng.below(i + 1));
    }
}

fn slices(
    rng: &mut Rng,
    geometry: &Geometry,
    lengths: &[Vec<u8>],
    order: &[u8],
    sound: bool,
) -> Vec<Slice> {
    let codes: Vec<Option<Code>> = lengths.iter().map(|l| Code::of(l).ok()).collect();
    let mut places = vec![0usize; lengths.len()];
    let always = rng.chance(50).then(|| rng.between(1, 3) as u8);
    let mut out = Vec::with_capacity(order.len());
    for plane in order.iter().map(|p| *p as usize) {
        let count = slice_samples(geometry, plane, places[plane]);
        places[plane] += 1;
        let mut slice = slice(rng, geometry.depth, codes[plane].as_ref(), count, sound);
        slice.predictor = always.unwrap_or(slice.predictor);
        out.push(slice);
    }
    out
}

/// One slice of some samples: coded where the plane has words, else raw, most of the time.
pub fn slice(rng: &mut Rng, depth: u32, code: Option<&Code>, count: usize, sound: bool) -> Slice {
    let words = code.filter(|c| c.shortest().is_some());
    let raw = match words {
        Some(_) => rng.chance(35),
        None => sound || rng.chance(85),
    };
    let (exact, least) = match (raw, words) {
        (true, _) => raw_payload(rng, depth, count),
        (false, Some(code)) => coded_payload(rng, code, count),
        (false, None) => (rng.bytes(count), 0),
    };
    let payload = sized(rng, exact, least, sound);
    let upper = if rng.chance(20) { rng.byte() & 0xfe } else { 0 };
    let predictor = if !sound && rng.chance(2) { rng.byte() } else { rng.between(1, 3) as u8 };
    Slice { flag: upper | u8::from(raw), predictor, payload }
}

/// Leaves a payload as it is, lengthens it, or cuts it to the least that passes, or to one below.
fn sized(rng: &mut Rng, mut payload: Vec<u8>, least: usize, sound: bool) -> Vec<u8> {
    match rng.below(100) {
        0..=69 => {}
        70..=79 => {
            let more = rng.between(1, 3);
            payload.extend(rng.bytes(more));
        }
        80..=91 => payload.truncate(least),
        92..=95 => payload = rng.bytes(payload.len().max(least)),
        _ if !sound => payload.truncate(least.saturating_sub(1)),
        _ => {}
    }
    payload
}

/// Raw residues from a small or a wide choice of values, and the byte count that they need.
fn raw_payload(rng: &mut Rng, depth: u32, count: usize) -> (Vec<u8>, usize) {
    let top = (1u32 << depth) - 1;
    let corners = [0, 1, 2, top / 2, top / 2 + 1, top - 1, top];
    let wide = rng.chance(50);
    let mut writer = BitWriter::default();
    for _ in 0..count {
        let value = if wide { rng.next() as u32 & top } else { rng.pick(&corners) };
        writer.put(value, depth);
    }
    let bytes = writer.done();
    let least = bytes.len();
    (bytes, least)
}

/// A chain of words, and the least byte count that the size check lets pass.
fn coded_payload(rng: &mut Rng, code: &Code, count: usize) -> (Vec<u8>, usize) {
    let words: Vec<(u32, u32, u16)> = code.words().collect();
    let shortest = words[0].0 as usize;
    let few = 1 + rng.below(words.len());
    let ends = rng.chance(30);
    let mut writer = BitWriter::default();
    for _ in 0..count {
        let at = match ends {
            true => rng.pick(&[0, words.len() - 1]),
            false => rng.below(few),
        };
        writer.put(words[at].1, words[at].0);
    }
    (writer.done(), (count * shortest).div_ceil(8))
}
