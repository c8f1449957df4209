//! Document 01 in plain, slow Rust, written from its text alone.
//!
//! It stands in for the archive where there is none, and is a third opinion where there is one. Each
//! file serves one heading: [`shape`] the geometry and refusals 1 to 4, [`layout`] refusals 5 to 8,
//! [`words`] refusals 9 and 10, the need and the lookup, [`slices`] the slice checks and the reading,
//! [`predict`] the prediction. This one has the order of the checks and what memory is left.

pub mod bits;
pub mod layout;
pub mod predict;
pub mod shape;
pub mod slices;
pub mod table;
pub mod words;

use crate::{Answer, Core, Numbers, Place};
use shape::Shape;
use words::{Code, Misfit};

/// The two frame entries.
#[derive(Clone, Copy, Debug, PartialEq, Eq)]
pub enum Entry {
    /// Byte samples, depth 8.
    Eight,
    /// 16-bit samples, depths 10, 12 and 14.
    Sixteen,
}

/// A refusal: its number and its place.
#[derive(Clone, Copy, Debug, PartialEq, Eq)]
pub struct Refusal {
    /// 1 to 15.
    pub number: u32,
    /// Where.
    pub place: Place,
}

impl Refusal {
    fn at(number: u32, place: Place) -> Self {
        Refusal { number, place }
    }
}

impl From<Refusal> for Answer {
    fn from(r: Refusal) -> Answer {
        Answer::Refused { number: r.number, place: r.place }
    }
}

/// Refuses by `number` when the rule is broken.
fn refuse_if(broken: bool, number: u32, place: Place) -> Result<(), Refusal> {
    if broken {
        Err(Refusal::at(number, place))
    } else {
        Ok(())
    }
}

/// All checks in the order of document 01's table, then the picture in buffer order.
pub fn picture(
    entry: Entry,
    frame: &[u8],
    lengths: &[u8],
    samples: usize,
    words: usize,
    numbers: &Numbers,
) -> Result<Vec<u16>, Refusal> {
    let shape = Shape::of(entry, numbers)?;
    shape.lent(lengths.len(), samples)?;
    let slices = layout::slices(&shape, frame)?;
    let codes = codes(&shape, lengths)?;
    let need: usize = codes.iter().map(Code::need).sum();
    refuse_if(words < need, 11, Place::Nothing)?;
    slices::check(&shape, frame, &slices, &codes)?;
    let wire = slices::read(&shape, frame, &slices, &codes)?;
    Ok(predict::in_buffer_order(&shape, wire))
}

/// Refusals 9 and 10, plane by plane, 9 first in each.
fn codes(shape: &Shape, lengths: &[u8]) -> Result<Vec<Code>, Refusal> {
    let plane_code = |(p, l): (usize, &[u8])| {
        Code::of(l).map_err(|misfit| Refusal::at(misfit.number(), Place::Plane(p as u32)))
    };
    lengths.chunks(1 << shape.depth).enumerate().map(plane_code).collect()
}

/// The sum of all planes' needs; `None` where refusal 9 or 10 comes first.
pub fn needs(lengths: &[u8], depth: u32) -> Option<usize> {
    lengths.chunks(1 << depth).map(|l| Code::of(l).ok().map(|c| c.need())).sum()
}

/// Document 01: refusals 1 to 4 leave both as found, all others leave both zero, success leaves the
/// workspace zero and defines every sample.
fn leave<T: Copy + From<u8>>(
    outcome: Result<Vec<u16>, Refusal>,
    planes: &mut [T],
    workspace: &mut [u32],
    sample: impl Fn(u16) -> T,
) -> Answer {
    match outcome {
        Ok(picture) => {
            planes.iter_mut().zip(picture).for_each(|(to, from)| *to = sample(from));
            workspace.fill(0);
            Answer::Planes
        }
        Err(refusal) => {
            if refusal.number > 4 {
                planes.fill(T::from(0));
                workspace.fill(0);
            }
            refusal.into()
        }
    }
}

/// A table by itself: 4 for more than 16,384 lengths, then 9, 10 and 11 for plane 0.
fn code_alone(lengths: &[u8], words: usize) -> Result<Code, Refusal> {
    refuse_if(lengths.len() > 16_384, 4, Place::Nothing)?;
    let code = Code::of(lengths)
        .map_err(|misfit: Misfit| Refusal::at(misfit.number(), Place::Plane(0)))?;
    refuse_if(words < code.need(), 11, Place::Nothing)?;
    Ok(code)
}

/// A reading by itself, up to the samples: 4 also for more samples than the largest plane, which
/// stands before 9, 10 and 11 as in the table of refusals.
fn opened(lengths: &[u8], words: usize, samples: usize) -> Result<Code, Refusal> {
    refuse_if(samples > 268_435_456, 4, Place::Nothing)?;
    code_alone(lengths, words)
}

/// The model as the four entries.
pub struct Model;

impl Core for Model {
    fn decode8(
        &self,
        frame: &[u8],
        lengths: &[u8],
        planes: &mut [u8],
        workspace: &mut [u32],
        numbers: &Numbers,
    ) -> Answer {
        let outcome = picture(Entry::Eight, frame, lengths, planes.len(), workspace.len(), numbers);
        leave(outcome, planes, workspace, |s| s as u8)
    }

    fn decode16(
        &self,
        frame: &[u8],
        lengths: &[u8],
        planes: &mut [u16],
        workspace: &mut [u32],
        numbers: &Numbers,
    ) -> Answer {
        let outcome =
            picture(Entry::Sixteen, frame, lengths, planes.len(), workspace.len(), numbers);
        leave(outcome, planes, workspace, |s| s)
    }

    fn build(&self, lengths: &[u8], workspace: &mut [u32]) -> Answer {
        match code_alone(lengths, workspace.len()) {
            Err(refusal) => refusal.into(),
            Ok(code) => {
                let words = table::words(&code);
                workspace[..words.len()].copy_from_slice(&words);
                Answer::Planes
            }
        }
    }

    fn read(
        &self,
        lengths: &[u8],
        payload: &[u8],
        workspace: &mut [u32],
        samples: &mut [u16],
    ) -> Answer {
        let code = match opened(lengths, workspace.len(), samples.len()) {
            Err(refusal) => return refusal.into(),
            Ok(code) => code,
        };
        workspace.fill(0);
        match slices::coded(&code, payload, samples.len()) {
            Some(read) => {
                samples.copy_from_slice(&read);
                Answer::Planes
            }
            None => {
                samples.fill(0);
                Refusal::at(14, Place::Plane(0)).into()
            }
        }
    }
}
