//! Where a frame stands to document 01's comparison domain: "every frame whose header the host parses
//! to fields within these caps and whose descriptors it parses, or which the Rust refuses before the
//! descriptors (then the host lends zero lengths)".

use crate::rust_side::Said;
use magicyuv_host::container::{self, Header, HeaderFault};
use magicyuv_host::descriptors::{self, Lengths};
use magicyuv_host::{Geometry, Place};

/// A frame's standing.
pub enum Standing {
    /// The host finds no header.
    NoHeader(HeaderFault),
    /// A size is outside the caps.
    BeyondCaps(Header),
    /// Inside the domain, with the lengths to lend.
    Inside(Geometry, Vec<u8>),
    /// Outside, because a length is above the Rust's cap by depth and not above 18; it could be lent.
    AboveTheirCap(Geometry, Vec<u8>),
    /// Outside, because a descriptor ends too early.
    DescriptorShort,
    /// The host refuses a descriptor that the Rust takes.
    HostAloneRefuses,
}

/// Finds the standing of a frame to which the Rust said something.
pub fn standing(bytes: &[u8], said: &Said) -> Standing {
    let header = match container::parse(bytes) {
        Err(fault) => return Standing::NoHeader(fault),
        Ok(header) if !header.geometry.within_caps() => return Standing::BeyondCaps(header),
        Ok(header) => header,
    };
    let geometry = header.geometry;
    let zeros = || vec![0u8; geometry.length_bytes()];
    match descriptors::of_frame(bytes, &geometry, header.format.cap()) {
        Lengths::Read(lengths) => Standing::Inside(geometry, lengths),
        Lengths::NotReached => Standing::Inside(geometry, zeros()),
        Lengths::Bad(_) if before_descriptors(said) => Standing::Inside(geometry, zeros()),
        Lengths::Bad(_) => bad_descriptor(bytes, geometry, said),
    }
}

/// A descriptor that the host does not take. Without the cap by depth its lengths can often be lent
/// all the same; then the frame counts as inside where the Rust's refusal is document 01's too.
fn bad_descriptor(bytes: &[u8], geometry: Geometry, said: &Said) -> Standing {
    let refused_there = match said {
        Said::DescriptorShort => true,
        Said::Row { number, .. } => *number == 9 || *number == 10,
        _ => false,
    };
    if !refused_there {
        return Standing::HostAloneRefuses;
    }
    match descriptors::of_frame(bytes, &geometry, u8::MAX) {
        Lengths::Read(lengths) if refused_by_both(said, &lengths, geometry.depth) => {
            Standing::Inside(geometry, lengths)
        }
        Lengths::Read(lengths) => Standing::AboveTheirCap(geometry, lengths),
        _ => Standing::DescriptorShort,
    }
}

/// Whether the Rust refused before it came to the descriptors.
fn before_descriptors(said: &Said) -> bool {
    matches!(said, Said::Row { number, .. } if (2..=8).contains(number))
}

/// The Rust refuses a length above its cap: document 01 does too when that plane has one above 18. It
/// refuses shares above one in an earlier plane: document 01 does too.
fn refused_by_both(said: &Said, lengths: &[u8], depth: u32) -> bool {
    let Said::Row { number, place: Some(Place::Plane(plane)), .. } = said else { return false };
    let from = (*plane as usize) << depth;
    let above = |l: &u8| *l > 18;
    *number == 10 || lengths[from..from + (1 << depth)].iter().any(above)
}
