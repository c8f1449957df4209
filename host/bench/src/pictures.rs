//! The frames of the benchmark, made from a smooth picture with some noise: the residues of a
//! predictor (document 01, "Prediction"), and code lengths from their counts.

use compare::draft::{plane_major, BitWriter, Draft, Slice};
use compare::known_frames::geometry;
use compare::rng::Rng;
use compare::small::format;
use magicyuv_host::model::predict::Predictor::{self, Gradient, Left, Median};
use magicyuv_host::model::words::Code;
use magicyuv_host::Family::{self, Gray, Rgb, Rgba, Yuv};
use magicyuv_host::Geometry;

/// A picture's size and its slice height.
#[derive(Clone, Copy)]
pub struct Size {
    /// Columns.
    pub width: u32,
    /// Rows.
    pub height: u32,
    /// Rows of a slice.
    pub slice: u32,
}

/// What is timed where the size is not what matters.
pub const TIMED: Size = Size { width: 1920, height: 1080, slice: 108 };

/// What a frame of the benchmark is, but for its size.
#[derive(Clone, Copy)]
pub struct Kind {
    family: Family,
    sx: u32,
    depth: u32,
    predictor: Predictor,
    raw: bool,
    interlaced: bool,
}

const fn kind(family: Family, depth: u32, predictor: Predictor, raw: bool) -> Kind {
    let sx = if matches!(family, Yuv) { 2 } else { 1 };
    Kind { family, sx, depth, predictor, raw, interlaced: false }
}

const fn in_fields(kind: Kind) -> Kind {
    Kind { interlaced: true, ..kind }
}

/// The frames that are timed. The first four are those that `--once` knows.
pub const FRAMES: [Kind; 14] = [
    kind(Gray, 8, Left, false),
    kind(Yuv, 10, Median, false),
    kind(Rgb, 8, Left, true),
    kind(Gray, 10, Left, true),
    kind(Gray, 8, Gradient, false),
    kind(Gray, 8, Median, false),
    kind(Yuv, 10, Left, false),
    kind(Yuv, 10, Gradient, false),
    kind(Yuv, 12, Median, false),
    kind(Gray, 14, Left, false),
    kind(Rgb, 8, Left, false),
    kind(Yuv, 12, Median, true),
    in_fields(kind(Gray, 8, Left, false)),
    in_fields(kind(Yuv, 10, Median, false)),
];

/// The family with the most planes, for the most slices.
pub const RGBA: Kind = kind(Rgba, 8, Left, false);

impl Kind {
    /// Its name in tables.
    pub fn name(&self) -> String {
        let family =
            if self.family == Yuv { "Yuv 2x1".into() } else { format!("{:?}", self.family) };
        let way = if self.raw { "raw" } else { "coded" };
        let fields = if self.interlaced { ", interlaced" } else { "" };
        format!("{family} {}-bit {way} with {:?}{fields}", self.depth, self.predictor)
    }

    /// Whether its slices are raw.
    pub fn is_raw(&self) -> bool {
        self.raw
    }

    /// The same, raw or coded.
    pub fn with_raw(&self, raw: bool) -> Kind {
        Kind { raw, ..*self }
    }
}

/// A plane of a smooth picture with noise of a few levels.
fn plane(width: usize, height: usize, depth: u32, rng: &mut Rng) -> Vec<u16> {
    let top = f64::from((1u32 << depth) - 1);
    let across: Vec<f64> = (0..width).map(|x| 0.5 + 0.25 * (x as f64 / 97.0).sin()).collect();
    let mut samples = Vec::with_capacity(width * height);
    for y in 0..height {
        let down = 0.2 * (y as f64 / 61.0).cos();
        for wave in &across {
            let noise = rng.below(16) as f64 - 7.5;
            samples.push(((wave + down) * top + noise).clamp(0.0, top) as u16);
        }
    }
    samples
}

/// The residues of one slice's rows, in one field or in two.
fn residues(kind: &Kind, band: &[u16], width: usize) -> Vec<u16> {
    let fields = if kind.interlaced { 2 } else { 1 };
    let predicted = |at: usize| match (at / width < fields, at % width) {
        (true, 0) => 0,
        (true, _) => band[at - 1],
        (false, 0) => band[at - fields * width],
        (false, _) => {
            let top = at - fields * width;
            kind.predictor.of_neighbours(band[at - 1], band[top], band[top - 1], kind.depth)
        }
    };
    let less = |at: usize| band[at].wrapping_sub(predicted(at)) % (1 << kind.depth);
    (0..band.len()).map(less).collect()
}

/// Lengths whose shares are at most one: a residue's length is its share rounded up to a power of
/// two, with a sixteenth of all shares spread over every symbol.
fn lengths(bands: &[Vec<u16>], depth: u32) -> Vec<u8> {
    let n = 1usize << depth;
    let mut counts = vec![0u64; n];
    bands.iter().flatten().for_each(|r| counts[*r as usize] += 1);
    let total = bands.iter().map(Vec::len).sum::<usize>() as f64;
    let share = |count: &u64| 15.0 / 16.0 * (*count as f64) / total + 1.0 / (16.0 * n as f64);
    counts.iter().map(|count| (-share(count).log2()).ceil() as u8).collect()
}

/// Each symbol's word, as its length and its bits.
fn words(lengths: &[u8]) -> Vec<(u32, u32)> {
    let mut words = vec![(0, 0); lengths.len()];
    let code = Code::of(lengths).expect("shares of at most one");
    code.words().for_each(|(length, word, symbol)| words[symbol as usize] = (length, word));
    words
}

fn coded(residues: &[u16], words: &[(u32, u32)]) -> Vec<u8> {
    let mut writer = BitWriter::default();
    for residue in residues {
        let (length, word) = words[*residue as usize];
        writer.put(word, length);
    }
    writer.done()
}

fn packed(residues: &[u16], depth: u32) -> Vec<u8> {
    let mut writer = BitWriter::default();
    residues.iter().for_each(|r| writer.put(u32::from(*r), depth));
    writer.done()
}

fn predictor_byte(kind: Predictor) -> u8 {
    match kind {
        Left => 1,
        Gradient => 2,
        Median => 3,
    }
}

/// One plane's slices and lengths.
fn plane_slices(g: &Geometry, p: usize, kind: &Kind) -> (Vec<Slice>, Vec<u8>) {
    let (width, height) = g.plane_size(p);
    let samples = plane(width, height, g.depth, &mut Rng::of(14, p as u64));
    let rows = g.slice_height as usize * height / g.height as usize;
    let bands: Vec<Vec<u16>> =
        samples.chunks(rows * width).map(|band| residues(kind, band, width)).collect();
    let lengths = if kind.raw { vec![0; 1 << g.depth] } else { lengths(&bands, g.depth) };
    let words = words(&lengths);
    let slice = |band: &Vec<u16>| Slice {
        flag: u8::from(kind.raw),
        predictor: predictor_byte(kind.predictor),
        payload: if kind.raw { packed(band, g.depth) } else { coded(band, &words) },
    };
    (bands.iter().map(slice).collect(), lengths)
}

/// The frame of a kind at a size.
pub fn frame(kind: &Kind, size: &Size) -> Draft {
    let format = format(kind.family, kind.sx, 1, kind.depth);
    let sizes = geometry(&format, size.width, size.height, size.slice);
    let geometry = Geometry { interlaced: kind.interlaced, ..sizes };
    let (mut slices, mut lengths) = (Vec::new(), Vec::new());
    for p in 0..kind.family.planes() {
        let (of_plane, plane_lengths) = plane_slices(&geometry, p, kind);
        slices.extend(of_plane);
        lengths.push(plane_lengths);
    }
    let order = plane_major(&geometry);
    Draft { format, geometry, lengths, order, slices, trailing: vec![], entry0: 0, shortest_run: 3 }
}

/// A Gray frame all of whose words have `bits` bits: as many symbols as there are such words, 256 at
/// most, each as likely as the others. Their residues are noise, so there is no picture.
pub fn equal_words(depth: u32, bits: u32, size: &Size) -> Draft {
    let format = format(Gray, 1, 1, depth);
    let geometry = geometry(&format, size.width, size.height, size.slice);
    let symbols = 1usize << bits.min(8);
    let mut lengths = vec![bits as u8; symbols];
    lengths.resize(1 << depth, 0);
    let (words, mut rng) = (words(&lengths), Rng::of(14, u64::from(bits)));
    let rows = |k: u32| size.slice.min(size.height - k * size.slice);
    let mut slice = |k: u32| {
        let count = rows(k) * size.width;
        let residues: Vec<u16> = (0..count).map(|_| rng.below(symbols) as u16).collect();
        Slice { flag: 0, predictor: predictor_byte(Left), payload: coded(&residues, &words) }
    };
    let slices = (0..geometry.bands() as u32).map(&mut slice).collect();
    let (lengths, order) = (vec![lengths], plane_major(&geometry));
    Draft { format, geometry, lengths, order, slices, trailing: vec![], entry0: 0, shortest_run: 3 }
}
