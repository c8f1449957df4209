//! The checks of every slice (12, 13, 14, 12) and the reading of one slice's residues (15, 14).

use crate::code::Code;
use crate::layout::{Layout, Slice};
use crate::predict::Predictor;
use crate::refuse_if;
use crate::sample::Sample;
use crate::shape::Shape;
use magicyuv_host::{Answer, Place};

/// Bytes before a slice's samples: flag and predictor.
const PREFIX: usize = 2;

/// Of the flag byte only this bit is read.
fn is_raw(flag: u8) -> bool {
    flag & 1 == 1
}

/// Every slice in wire order: bounds (12), 13, wordless plane (14), size (12).
pub fn check(shape: &Shape, layout: &Layout, codes: &[Code; 4]) -> Result<(), Answer> {
    for slice in layout.slices() {
        let place = Place::Slice(slice.number);
        let bytes = layout.frame().get(slice.start..slice.end);
        let bytes = bytes.ok_or(Answer::Refused { number: 12, place })?;
        refuse_if(bytes.len() < PREFIX, 13, place)?;
        let each = if is_raw(bytes[0]) {
            shape.depth as usize
        } else {
            let wordless = Answer::Refused { number: 14, place: Place::Plane(slice.plane as u32) };
            codes[slice.plane].shortest().ok_or(wordless)?
        };
        let samples = shape.planes()[slice.plane].stretch(slice.place).len();
        refuse_if(bytes.len() - PREFIX < (samples * each).div_ceil(8), 12, place)?;
    }
    Ok(())
}

/// Reads a checked slice's residues into its rows and hands back its predictor: 15, then 14.
pub fn read<S: Sample>(
    shape: &Shape,
    slice: &Slice,
    bytes: &[u8],
    code: &Code,
    workspace: &[u32],
    rows: &mut [S],
) -> Result<Predictor, Answer> {
    let no_predictor = Answer::Refused { number: 15, place: Place::Slice(slice.number) };
    let predictor = Predictor::of(bytes[1]).ok_or(no_predictor)?;
    let payload = &bytes[PREFIX..];
    if is_raw(bytes[0]) {
        S::raw(payload, rows, shape.depth);
    } else {
        let fits = code.read(workspace, payload, rows);
        refuse_if(!fits, 14, Place::Plane(slice.plane as u32))?;
    }
    Ok(predictor)
}
