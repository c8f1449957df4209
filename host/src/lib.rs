//! Digitsaucer's host crate: a safe wrapper over the proved decoding core of a MagicYUV v7 decoder.
//!
//! The core is the archive `libmagicyuv.a`, written and proved in Rattle. It takes a frame, a
//! geometry record, code lengths, a plane buffer and a workspace, and answers planes or one numbered
//! refusal with its place; document 01 has the rules. This crate has, in the order in which a frame
//! flows:
//!
//! * [`container`], [`formats`] and [`descriptors`]: what document 01 leaves to the host, the 32
//!   header bytes, the format table and the length descriptors;
//! * [`Geometry`], [`Family`], [`Answer`] and [`Place`]: the record that goes in and the answer;
//! * [`decode8`], [`decode16`], [`build`] and [`read`]: the four entries;
//! * [`model`]: document 01 once more, in plain and slow Rust.
//!
//! A build without the archive stops, unless `MAGICYUV_ARCHIVE=none` asked for the model in its place.
//! [`backing`] says which of the two answers, and the programs print it.
//!
//! ```
//! use magicyuv_host::{decode8, Answer, Family, Geometry};
//! let mut frame = vec![0u8; 32];
//! frame.extend([0, 0, 0, 0, 10, 0, 0, 0, 1, 0, 1, 1, 7, 5]);
//! let geometry = Geometry::plain(Family::Gray, 2, 1, 1, 8);
//! let (mut planes, mut workspace) = ([0u8; 2], [0u32; 1]);
//! let answer = decode8(&frame, &[0; 256], &mut planes, &mut workspace, &geometry);
//! assert_eq!(answer, Answer::Planes);
//! assert_eq!(planes, [7, 12]);
//! ```
#![deny(unsafe_code)]
#![warn(missing_docs)]

mod answer;
#[cfg(archive)]
#[allow(unsafe_code)]
pub mod archive;
pub mod container;
pub mod descriptors;
pub mod formats;
mod geometry;
#[cfg(feature = "kit_emulator")]
#[allow(unsafe_code)]
mod kit_emulator;
pub mod model;

pub use answer::{Answer, Place};
pub use geometry::{Family, Geometry, Numbers};

/// The four entries, on plain numbers: what the archive exports and what the model stands in for.
pub trait Core: Sync {
    /// A frame of depth 8 into byte samples.
    fn decode8(
        &self,
        frame: &[u8],
        lengths: &[u8],
        planes: &mut [u8],
        workspace: &mut [u32],
        numbers: &Numbers,
    ) -> Answer;
    /// A frame of depth 10, 12 or 14 into 16-bit samples.
    fn decode16(
        &self,
        frame: &[u8],
        lengths: &[u8],
        planes: &mut [u16],
        workspace: &mut [u32],
        numbers: &Numbers,
    ) -> Answer;
    /// A table built by itself.
    fn build(&self, lengths: &[u8], workspace: &mut [u32]) -> Answer;
    /// A reading by itself.
    fn read(
        &self,
        lengths: &[u8],
        payload: &[u8],
        workspace: &mut [u32],
        samples: &mut [u16],
    ) -> Answer;
}

/// What answers behind [`decode8`], [`decode16`], [`build`] and [`read`].
#[derive(Clone, Copy, Debug, PartialEq, Eq)]
pub enum Backing {
    /// The archive, written and proved in Rattle.
    Archive,
    /// The model of document 01, because the build was asked for no archive.
    Model,
}

/// Which of the two was built in.
pub fn backing() -> Backing {
    if cfg!(archive) {
        Backing::Archive
    } else {
        Backing::Model
    }
}

/// The backing as the four entries on plain numbers.
pub fn core() -> &'static dyn Core {
    #[cfg(archive)]
    return &archive::Archive;
    #[cfg(not(archive))]
    return &model::Model;
}

/// Decodes a frame of depth 8. Refusals 1 to 4 leave planes and workspace as found, all others leave
/// both zero, and success leaves the workspace zero.
pub fn decode8(
    frame: &[u8],
    lengths: &[u8],
    planes: &mut [u8],
    workspace: &mut [u32],
    geometry: &Geometry,
) -> Answer {
    core().decode8(frame, lengths, planes, workspace, &geometry.numbers())
}

/// Decodes a frame of depth 10, 12 or 14; memory as in [`decode8`].
pub fn decode16(
    frame: &[u8],
    lengths: &[u8],
    planes: &mut [u16],
    workspace: &mut [u32],
    geometry: &Geometry,
) -> Answer {
    core().decode16(frame, lengths, planes, workspace, &geometry.numbers())
}

/// Builds one table. A refusal leaves the workspace as found; success leaves the words past the
/// table's need as found. [`Answer::Planes`] means that the table was built.
pub fn build(lengths: &[u8], workspace: &mut [u32]) -> Answer {
    core().build(lengths, workspace)
}

/// Reads `samples.len()` samples of a coded payload. [`Answer::Planes`] means that all were read.
pub fn read(lengths: &[u8], payload: &[u8], workspace: &mut [u32], samples: &mut [u16]) -> Answer {
    core().read(lengths, payload, workspace, samples)
}
