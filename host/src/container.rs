//! The 32 header bytes of a MAGY frame, and a whole frame decoded from nothing but its bytes.
//! Document 01 leaves both to the host.
//!
//! | bytes | field |
//! |---|---|
//! | 0 to 3 | `MAGY` |
//! | 4 to 7 | header size, 32 |
//! | 8 | version, at most 7 |
//! | 9 | format byte |
//! | 10 | the descriptors' longest length |
//! | 11 | variant, not used |
//! | 12 to 15 | flags; bit 1 says two fields |
//! | 16 to 19 | width |
//! | 20 to 23 | height |
//! | 24 to 27 | a second width, not used |
//! | 28 to 31 | slice height |
//!
//! Numbers are little-endian. Sizes are not judged here: the core refuses them by 1.

use crate::descriptors::{self, Fault, Lengths};
use crate::formats::{self, Format};
use crate::{core, Answer, Geometry};

/// The header's byte count.
pub const HEADER: usize = 32;

/// Why a header is not one.
#[derive(Clone, Copy, Debug, PartialEq, Eq)]
pub enum HeaderFault {
    /// Fewer than 32 bytes.
    Short,
    /// The first four bytes are others.
    Magic,
    /// The header size is not 32.
    Size(u32),
    /// The version is above 7.
    Version(u8),
    /// No format has this byte.
    Format(u8),
    /// Byte 10 is not the format's.
    Cap(u8),
}

/// A header's fields that matter to decoding.
#[derive(Clone, Copy, Debug, PartialEq, Eq)]
pub struct Header {
    /// The format byte's row.
    pub format: Format,
    /// The record for the core.
    pub geometry: Geometry,
}

fn word_at(bytes: &[u8], at: usize) -> u32 {
    u32::from_le_bytes([bytes[at], bytes[at + 1], bytes[at + 2], bytes[at + 3]])
}

/// Reads the header.
pub fn parse(bytes: &[u8]) -> Result<Header, HeaderFault> {
    if bytes.len() < HEADER {
        return Err(HeaderFault::Short);
    }
    if &bytes[..4] != b"MAGY" {
        return Err(HeaderFault::Magic);
    }
    let size = word_at(bytes, 4);
    if size != HEADER as u32 {
        return Err(HeaderFault::Size(size));
    }
    if bytes[8] > 7 {
        return Err(HeaderFault::Version(bytes[8]));
    }
    let format = formats::lookup(bytes[9]).ok_or(HeaderFault::Format(bytes[9]))?;
    if bytes[10] != format.cap() {
        return Err(HeaderFault::Cap(bytes[10]));
    }
    Ok(Header { format, geometry: geometry_of(bytes, &format) })
}

fn geometry_of(bytes: &[u8], format: &Format) -> Geometry {
    Geometry {
        width: word_at(bytes, 16),
        height: word_at(bytes, 20),
        slice_height: word_at(bytes, 28),
        family: format.family,
        sx: format.sx,
        sy: format.sy,
        depth: format.depth,
        interlaced: word_at(bytes, 12) & 2 != 0,
    }
}

/// Writes a header; the second width repeats the first.
pub fn header_bytes(format: &Format, geometry: &Geometry) -> [u8; HEADER] {
    let mut out = [0u8; HEADER];
    out[..4].copy_from_slice(b"MAGY");
    out[4] = HEADER as u8;
    out[8] = 7;
    out[9] = format.byte;
    out[10] = format.cap();
    out[11] = 2;
    out[12] = if geometry.interlaced { 2 } else { 0 };
    out[16..20].copy_from_slice(&geometry.width.to_le_bytes());
    out[20..24].copy_from_slice(&geometry.height.to_le_bytes());
    out[24..28].copy_from_slice(&geometry.width.to_le_bytes());
    out[28..32].copy_from_slice(&geometry.slice_height.to_le_bytes());
    out
}

/// The samples of a whole picture, plane after plane in buffer order.
#[derive(Clone, Debug, PartialEq, Eq)]
pub enum Samples {
    /// Depth 8.
    Bytes(Vec<u8>),
    /// Depth 10, 12 or 14.
    Words(Vec<u16>),
}

/// Why a whole frame gives no picture.
#[derive(Clone, Copy, Debug, PartialEq, Eq)]
pub enum FrameFault {
    /// The header.
    Header(HeaderFault),
    /// A descriptor.
    Descriptor(Fault),
    /// The core's refusal.
    Refused(Answer),
}

/// Decodes a whole MAGY frame: header, descriptors, then the core.
pub fn decode(bytes: &[u8]) -> Result<(Geometry, Samples), FrameFault> {
    let header = parse(bytes).map_err(FrameFault::Header)?;
    let geometry = header.geometry;
    if !geometry.within_caps() {
        return Err(FrameFault::Refused(Answer::refused(1)));
    }
    match descriptors::of_frame(bytes, &geometry, header.format.cap()) {
        Lengths::Read(lengths) => run(bytes, &lengths, room_for(&lengths, &geometry), &geometry),
        Lengths::NotReached => run(bytes, &vec![0; geometry.length_bytes()], 0, &geometry),
        Lengths::Bad(fault) => earlier_refusal(bytes, &geometry, fault),
    }
}

/// A frame whose descriptors are bad is refused for what the core finds before them. An empty
/// workspace keeps the core from going further: there it answers 11.
fn earlier_refusal(
    bytes: &[u8],
    geometry: &Geometry,
    fault: Fault,
) -> Result<(Geometry, Samples), FrameFault> {
    match run(bytes, &vec![0; geometry.length_bytes()], 0, geometry) {
        Err(FrameFault::Refused(answer)) if answer.number() <= 8 => {
            Err(FrameFault::Refused(answer))
        }
        _ => Err(FrameFault::Descriptor(fault)),
    }
}

/// A workspace that no plane's need exceeds: 4,096 + 2^m where m is above 12, else 2^m.
fn room_for(lengths: &[u8], geometry: &Geometry) -> usize {
    let one = |plane: &[u8]| match plane.iter().copied().max().unwrap_or(0).min(18) {
        m if m <= 12 => 1usize << m,
        m => 4_096 + (1usize << m),
    };
    lengths.chunks(1 << geometry.depth).map(one).sum()
}

fn run(
    bytes: &[u8],
    lengths: &[u8],
    room: usize,
    geometry: &Geometry,
) -> Result<(Geometry, Samples), FrameFault> {
    let mut workspace = vec![0u32; room];
    let numbers = geometry.numbers();
    let count = geometry.samples();
    let (answer, samples) = if geometry.depth == 8 {
        let mut planes = vec![0u8; count];
        let answer = core().decode8(bytes, lengths, &mut planes, &mut workspace, &numbers);
        (answer, Samples::Bytes(planes))
    } else {
        let mut planes = vec![0u16; count];
        let answer = core().decode16(bytes, lengths, &mut planes, &mut workspace, &numbers);
        (answer, Samples::Words(planes))
    };
    match answer {
        Answer::Planes => Ok((*geometry, samples)),
        refused => Err(FrameFault::Refused(refused)),
    }
}
