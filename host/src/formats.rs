//! The format table: which family, factors and depth a header's format byte stands for.
//!
//! The customer's table is not to be had. These bytes are a stand-in of our own making, with one row
//! for each geometry that the customer's Rust can express; `oracle/tables/` has the same rows for it,
//! and a test holds the two against each other. Document 01 leaves the table to the host.

use crate::Family;

/// One row: a format byte and what it stands for.
#[derive(Clone, Copy, Debug, PartialEq, Eq)]
pub struct Format {
    /// Header byte 9.
    pub byte: u8,
    /// The family.
    pub family: Family,
    /// Factor across.
    pub sx: u32,
    /// Factor down.
    pub sy: u32,
    /// Bits of a sample.
    pub depth: u32,
}

impl Format {
    /// The longest length that a descriptor of this depth may hold, which is header byte 10.
    pub fn cap(&self) -> u8 {
        cap_of(self.depth)
    }
}

/// 12, 14, 16 or 18 for depth 8, 10, 12 or 14.
pub fn cap_of(depth: u32) -> u8 {
    (12 + (depth - 8)) as u8
}

const fn row(byte: u8, family: Family, sx: u32, sy: u32, depth: u32) -> Format {
    Format { byte, family, sx, sy, depth }
}

/// Every format, seven for each depth.
pub const FORMATS: [Format; 28] = [
    row(0x65, Family::Rgb, 1, 1, 8),
    row(0x66, Family::Rgba, 1, 1, 8),
    row(0x67, Family::Yuv, 1, 1, 8),
    row(0x68, Family::Yuv, 2, 1, 8),
    row(0x69, Family::Yuv, 2, 2, 8),
    row(0x6a, Family::Yuva, 1, 1, 8),
    row(0x6b, Family::Gray, 1, 1, 8),
    row(0x6c, Family::Yuv, 2, 1, 10),
    row(0x6d, Family::Rgb, 1, 1, 10),
    row(0x6e, Family::Rgba, 1, 1, 10),
    row(0x73, Family::Gray, 1, 1, 10),
    row(0x76, Family::Yuv, 1, 1, 10),
    row(0x7b, Family::Yuv, 2, 2, 10),
    row(0x80, Family::Yuva, 1, 1, 10),
    row(0x6f, Family::Rgb, 1, 1, 12),
    row(0x70, Family::Rgba, 1, 1, 12),
    row(0x81, Family::Yuv, 1, 1, 12),
    row(0x82, Family::Yuv, 2, 1, 12),
    row(0x83, Family::Yuv, 2, 2, 12),
    row(0x84, Family::Yuva, 1, 1, 12),
    row(0x85, Family::Gray, 1, 1, 12),
    row(0x71, Family::Rgb, 1, 1, 14),
    row(0x72, Family::Rgba, 1, 1, 14),
    row(0x86, Family::Yuv, 1, 1, 14),
    row(0x87, Family::Yuv, 2, 1, 14),
    row(0x88, Family::Yuv, 2, 2, 14),
    row(0x89, Family::Yuva, 1, 1, 14),
    row(0x8a, Family::Gray, 1, 1, 14),
];

/// The row of a format byte.
pub fn lookup(byte: u8) -> Option<Format> {
    FORMATS.iter().copied().find(|f| f.byte == byte)
}
