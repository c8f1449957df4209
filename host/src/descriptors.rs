//! The per-plane length descriptors, which document 01 leaves to the host.
//!
//! After the preamble's plane count and its T indices stand P descriptors, planes in wire order. A
//! descriptor gives 2^depth lengths: a byte below 128 is one length; a byte from 128 on is a run of
//! the length `byte - 128`, one more than its next byte says. A last run may be longer than what is
//! still wanted. No length may be above the depth's cap, which is header byte 10.

use crate::Geometry;

/// Why a descriptor cannot be read.
#[derive(Clone, Copy, Debug, PartialEq, Eq)]
pub enum Fault {
    /// The preamble ends inside the descriptor of this plane.
    Short {
        /// The plane, in wire order.
        plane: usize,
    },
    /// A length is above the cap.
    AboveCap {
        /// The plane, in wire order.
        plane: usize,
        /// The length.
        length: u8,
    },
}

/// What the host has to lend for a frame.
#[derive(Clone, Debug, PartialEq, Eq)]
pub enum Lengths {
    /// All planes' lengths, planes in wire order.
    Read(Vec<u8>),
    /// The frame has no place where descriptors could stand: the host lends zeros, and the core
    /// refuses for that very reason.
    NotReached,
    /// A descriptor is bad.
    Bad(Fault),
}

/// The lengths of a frame whose geometry is within the caps.
pub fn of_frame(frame: &[u8], geometry: &Geometry, cap: u8) -> Lengths {
    let Some(from) = start(frame, geometry) else { return Lengths::NotReached };
    match planes(from, geometry.family.planes(), 1 << geometry.depth, cap) {
        Ok(lengths) => Lengths::Read(lengths),
        Err(fault) => Lengths::Bad(fault),
    }
}

/// The preamble's bytes after the count and the indices.
fn start<'a>(frame: &'a [u8], geometry: &Geometry) -> Option<&'a [u8]> {
    let slices = geometry.slices();
    let table_end = 32 + 4 * (slices + 1);
    let entry = frame.get(36..40)?;
    let preamble_end = 32 + u32::from_le_bytes([entry[0], entry[1], entry[2], entry[3]]) as usize;
    frame.get(table_end..preamble_end)?.get(1 + slices..)
}

/// Reads the descriptors of `count` planes with `n` lengths each.
pub fn planes(bytes: &[u8], count: usize, n: usize, cap: u8) -> Result<Vec<u8>, Fault> {
    let mut out = Vec::with_capacity(count * n);
    let mut rest = bytes;
    for plane in 0..count {
        rest = one(rest, n, cap, plane, &mut out)?;
    }
    Ok(out)
}

/// Reads one descriptor onto `out` and hands back what follows it.
fn one<'a>(
    bytes: &'a [u8],
    n: usize,
    cap: u8,
    plane: usize,
    out: &mut Vec<u8>,
) -> Result<&'a [u8], Fault> {
    let mut rest = bytes;
    let mut wanted = n;
    while wanted > 0 {
        let (length, run, after) = piece(rest).ok_or(Fault::Short { plane })?;
        if length > cap {
            return Err(Fault::AboveCap { plane, length });
        }
        let taken = run.min(wanted);
        out.resize(out.len() + taken, length);
        wanted -= taken;
        rest = after;
    }
    Ok(rest)
}

/// The next length, how often it stands, and what follows.
fn piece(bytes: &[u8]) -> Option<(u8, usize, &[u8])> {
    match bytes {
        [first, rest @ ..] if *first < 128 => Some((*first, 1, rest)),
        [first, more, rest @ ..] => Some((*first - 128, 1 + *more as usize, rest)),
        _ => None,
    }
}

/// Writes one descriptor, runs wherever a length stands at least `shortest_run` times.
pub fn write(lengths: &[u8], shortest_run: usize) -> Vec<u8> {
    let mut out = Vec::new();
    let mut at = 0;
    while at < lengths.len() {
        let length = lengths[at];
        let run = lengths[at..].iter().take(256).take_while(|l| **l == length).count();
        if run >= shortest_run.max(1) {
            out.extend([128 + length, (run - 1) as u8]);
        } else {
            out.resize(out.len() + run, length);
        }
        at += run;
    }
    out
}
