//! The customer's Rust as one side of the comparison: its planes, or the row of document 01's table
//! that its error belongs to, with the place where it gives one.

use magicyuv_host::Place;
use oracle::bitreader::BitReader;
use oracle::decoder::{decode_frame, DecodedFrame, Samples};
use oracle::error::Error;
use oracle::huffman::HuffmanTable;
use std::panic::{catch_unwind, AssertUnwindSafe};

/// What the Rust says to a frame.
#[derive(Clone, Debug, PartialEq, Eq)]
pub enum Said {
    /// All planes one after another, in its own order.
    Planes(Vec<u16>),
    /// An error that belongs to a row.
    Row {
        /// The row's number.
        number: u32,
        /// The place, where the Rust gives one.
        place: Option<Place>,
        /// The predictor byte, which it gives for row 15.
        predictor: Option<u8>,
    },
    /// The header is refused; no row has that.
    Header,
    /// A descriptor ends too early; no row has that.
    DescriptorShort,
    /// It panicked.
    Panicked,
}

fn flat(frame: &DecodedFrame) -> Vec<u16> {
    let mut out = Vec::new();
    for plane in &frame.planes {
        match &plane.samples {
            Samples::U8(samples) => out.extend(samples.iter().map(|s| u16::from(*s))),
            Samples::U16(samples) => out.extend(samples),
        }
    }
    out
}

fn row(number: u32, place: Option<Place>) -> Said {
    Said::Row { number, place, predictor: None }
}

fn at_slice(number: u32, slice: usize) -> Said {
    row(number, Some(Place::Slice(slice as u32)))
}

fn at_plane(number: u32, plane: usize) -> Said {
    row(number, Some(Place::Plane(plane as u32)))
}

/// The row of a truncation, by its label: the table, the preamble, its count byte, a descriptor.
fn truncated(label: &str) -> Said {
    let nothing = Some(Place::Nothing);
    if label.starts_with("slice") {
        row(5, nothing)
    } else if label.contains("!=") {
        row(7, nothing)
    } else if label.starts_with("preamble") {
        row(6, nothing)
    } else if label.starts_with("huffman") {
        Said::DescriptorShort
    } else {
        Said::Header
    }
}

fn said(error: &Error) -> Said {
    match error {
        Error::Truncated { what, .. } => truncated(what),
        Error::OddDimensionForSubsampling { .. } => row(2, Some(Place::Nothing)),
        Error::SliceHeightNotDivisibleBySubsampling { .. } => row(3, Some(Place::Nothing)),
        Error::BadPlaneIndex { slice_index, .. } => at_slice(8, *slice_index),
        Error::HuffmanLengthExceedsMax { plane, .. } => at_plane(9, *plane),
        Error::HuffmanOverfull { plane } => at_plane(10, *plane),
        Error::SliceTruncated { slice_index } => at_slice(12, *slice_index),
        Error::SlicePrefixMissing { slice_index } => at_slice(13, *slice_index),
        Error::HuffmanIncomplete { plane } => at_plane(14, *plane),
        Error::BadPredictorId(byte) => {
            Said::Row { number: 15, place: None, predictor: Some(*byte) }
        }
        _ => Said::Header,
    }
}

/// Decodes a frame.
pub fn decode(bytes: &[u8]) -> Said {
    match catch_unwind(|| decode_frame(bytes)) {
        Ok(Ok(frame)) => Said::Planes(flat(&frame)),
        Ok(Err(error)) => said(&error),
        Err(_) => Said::Panicked,
    }
}

/// The error in the Rust's own words, for a report.
pub fn error_text(bytes: &[u8]) -> String {
    match catch_unwind(|| decode_frame(bytes)) {
        Ok(Ok(frame)) => format!("accepted, {} planes", frame.planes.len()),
        Ok(Err(error)) => format!("{error:?}"),
        Err(_) => "panicked".into(),
    }
}

/// A table by itself: the table, or none when it is over-full.
pub fn table(lengths: &[u8]) -> Option<HuffmanTable> {
    HuffmanTable::build(lengths.to_vec(), 0).ok()
}

/// Reads n samples; none where it finds no word.
pub fn read(table: &HuffmanTable, payload: &[u8], n: usize) -> Option<Vec<u16>> {
    let mut samples = vec![0u16; n];
    let mut reader = BitReader::new(payload);
    table.decode_into_u16(&mut reader, &mut samples, u16::MAX).then_some(samples)
}

/// Reads n byte samples, as the Rust does at depth 8.
pub fn read8(table: &HuffmanTable, payload: &[u8], n: usize) -> Option<Vec<u16>> {
    let mut samples = vec![0u8; n];
    let mut reader = BitReader::new(payload);
    let good = table.decode_into_u8(&mut reader, &mut samples);
    good.then(|| samples.into_iter().map(u16::from).collect())
}

/// The word at a bit position, as its symbol.
pub fn symbol_at(table: &HuffmanTable, payload: &[u8], position: usize) -> Option<u16> {
    let mut reader = BitReader::new(payload);
    (0..position).for_each(|_| reader.consume(1));
    let mut sample = [0u16];
    let good = table.decode_into_u16(&mut reader, &mut sample, u16::MAX);
    good.then_some(sample[0])
}

/// Runs something of the Rust's that may panic.
pub fn guarded<T>(what: impl FnOnce() -> T) -> Option<T> {
    catch_unwind(AssertUnwindSafe(what)).ok()
}
