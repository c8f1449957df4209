//! Small sound frames that the exhaustive runs, the findings and the stored list start from.

use crate::draft::{plane_major, slice_samples, BitWriter, Draft, Slice};
use magicyuv_host::formats::Format;
use magicyuv_host::model::words::Code;
use magicyuv_host::Geometry;

/// The geometry of a format with some sizes.
pub fn geometry(format: &Format, width: u32, height: u32, slice_height: u32) -> Geometry {
    Geometry {
        width,
        height,
        slice_height,
        family: format.family,
        sx: format.sx,
        sy: format.sy,
        depth: format.depth,
        interlaced: false,
    }
}

/// A raw payload of the residues 1, 2, 3, ..
pub fn raw_payload(count: usize, depth: u32) -> Vec<u8> {
    let mut writer = BitWriter::default();
    (0..count).for_each(|i| writer.put((i as u32 + 1) % (1 << depth), depth));
    writer.done()
}

/// A coded payload that goes through the code's words in turn.
pub fn coded_payload(count: usize, code: &Code) -> Vec<u8> {
    let words: Vec<(u32, u32, u16)> = code.words().collect();
    let mut writer = BitWriter::default();
    for i in 0..count {
        let (length, word, _) = words[i % words.len()];
        writer.put(word, length);
    }
    writer.done()
}

/// A frame in plane order: raw where a plane has no word, else coded; predictors in turn.
pub fn frame(format: &Format, geometry: Geometry, lengths: &[u8]) -> Draft {
    let mut all = lengths.to_vec();
    all.resize(1 << format.depth, 0);
    let code = Code::of(&all).ok().filter(|c| c.shortest().is_some());
    let order = plane_major(&geometry);
    let bands = geometry.bands();
    let slice = |(s, plane): (usize, &u8)| {
        let count = slice_samples(&geometry, *plane as usize, s % bands);
        let (flag, payload) = match &code {
            Some(code) => (0, coded_payload(count, code)),
            None => (1, raw_payload(count, format.depth)),
        };
        Slice { flag, predictor: 1 + (s % 3) as u8, payload }
    };
    Draft {
        format: *format,
        geometry,
        slices: order.iter().enumerate().map(slice).collect(),
        lengths: vec![all; format.family.planes()],
        order,
        trailing: vec![],
        entry0: 0,
        shortest_run: 3,
    }
}
