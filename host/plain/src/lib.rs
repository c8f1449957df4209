//! A plain Rust decoder of a MAGY frame: what the proved core is timed against.
//!
//! It does the core's work on the core's inputs: all checks of document 01's table in its order, the
//! tables in the lent workspace, every slice read and rebuilt in its rows of the lent plane buffer, and
//! memory left as document 01 says. It is ordinary Rust for speed, with a bit reader of its own, no
//! `unsafe`, nothing allocated, and nothing proved. In the order in which a frame flows:
//!
//! * `shape`: the geometry, refusals 1 to 4;
//! * `layout`: entries, preamble and indices, refusals 5 to 8;
//! * `code`: a plane's words, refusals 9 and 10, its table and the chain of words read with it;
//! * `slices`: the checks of every slice (12, 13, 14, 12) and the reading of one (15, 14);
//! * `bits`: the bit reader;
//! * `predict`: samples from residues, and G added to B' and R';
//! * `sample`: what differs between byte samples and 16-bit samples.
#![forbid(unsafe_code)]
#![warn(missing_docs)]

mod bits;
mod code;
mod layout;
mod predict;
mod sample;
mod shape;
mod slices;

use code::Code;
use layout::Layout;
use magicyuv_host::{Answer, Numbers, Place};
use sample::Sample;
use shape::Shape;

/// The parts of a decode, for a clock.
#[derive(Clone, Copy, Debug, PartialEq, Eq)]
pub enum Stage {
    /// Refusals 1 to 13 and the wordless 14, the counting of every plane's lengths among them.
    Checks,
    /// Every plane's table is written.
    Tables,
    /// One slice's residues, coded or raw, are read into its rows; 15 and 14 are found here.
    Words,
    /// One slice's residues become samples; at the end G is added to B' and R'.
    Prediction,
    /// Memory is left as document 01 says.
    Clearing,
}

/// Decodes a frame of depth 8. Refusals 1 to 4 leave planes and workspace as found, all others leave
/// both zero, and success leaves the workspace zero.
pub fn decode8(
    frame: &[u8],
    lengths: &[u8],
    planes: &mut [u8],
    workspace: &mut [u32],
    numbers: &Numbers,
) -> Answer {
    staged8(frame, lengths, planes, workspace, numbers, &mut |_| ())
}

/// Decodes a frame of depth 10, 12 or 14; memory as in [`decode8`].
pub fn decode16(
    frame: &[u8],
    lengths: &[u8],
    planes: &mut [u16],
    workspace: &mut [u32],
    numbers: &Numbers,
) -> Answer {
    staged16(frame, lengths, planes, workspace, numbers, &mut |_| ())
}

/// [`decode8`], which calls `enter` whenever a stage begins: twice a slice at most, and at most four
/// times a frame besides.
pub fn staged8(
    frame: &[u8],
    lengths: &[u8],
    planes: &mut [u8],
    workspace: &mut [u32],
    numbers: &Numbers,
    enter: &mut impl FnMut(Stage),
) -> Answer {
    decode(frame, lengths, planes, workspace, numbers, enter)
}

/// [`decode16`], which calls `enter` as [`staged8`] does.
pub fn staged16(
    frame: &[u8],
    lengths: &[u8],
    planes: &mut [u16],
    workspace: &mut [u32],
    numbers: &Numbers,
    enter: &mut impl FnMut(Stage),
) -> Answer {
    decode(frame, lengths, planes, workspace, numbers, enter)
}

/// Refuses by `number` when a rule is broken.
fn refuse_if(broken: bool, number: u32, place: Place) -> Result<(), Answer> {
    if broken {
        Err(Answer::Refused { number, place })
    } else {
        Ok(())
    }
}

/// Both entries: refusals 1 to 4, which touch nothing; the picture; and what is left in memory.
fn decode<S: Sample>(
    frame: &[u8],
    lengths: &[u8],
    planes: &mut [S],
    workspace: &mut [u32],
    numbers: &Numbers,
    enter: &mut impl FnMut(Stage),
) -> Answer {
    enter(Stage::Checks);
    let shape = match Shape::of::<S>(numbers, lengths.len(), planes.len()) {
        Ok(shape) => shape,
        Err(refusal) => return refusal,
    };
    let outcome = picture(&shape, frame, lengths, planes, workspace, enter);
    enter(Stage::Clearing);
    workspace.fill(0);
    match outcome {
        Ok(()) => Answer::Planes,
        Err(refusal) => {
            planes.fill(S::default());
            refusal
        }
    }
}

/// Refusals 5 to 15 in document 01's order, and the picture in the plane buffer.
fn picture<S: Sample>(
    shape: &Shape,
    frame: &[u8],
    lengths: &[u8],
    planes: &mut [S],
    workspace: &mut [u32],
    enter: &mut impl FnMut(Stage),
) -> Result<(), Answer> {
    let layout = Layout::of(shape, frame)?;
    let codes = Code::of_planes(shape, lengths)?;
    let need: usize = codes[..shape.planes().len()].iter().map(Code::need).sum();
    refuse_if(workspace.len() < need, 11, Place::Nothing)?;
    slices::check(shape, &layout, &codes)?;
    enter(Stage::Tables);
    Code::build_all(&codes, shape, lengths, workspace);
    for slice in layout.slices() {
        let plane = &shape.planes()[slice.plane];
        let rows = &mut planes[plane.stretch(slice.place)];
        let bytes = &frame[slice.start..slice.end];
        enter(Stage::Words);
        let predictor = slices::read(shape, &slice, bytes, &codes[slice.plane], workspace, rows)?;
        enter(Stage::Prediction);
        predict::rebuild(predictor, rows, plane.width, shape);
    }
    if shape.decorrelated {
        enter(Stage::Prediction);
        predict::add_green(planes, &shape.planes()[0], shape.mask());
    }
    Ok(())
}
