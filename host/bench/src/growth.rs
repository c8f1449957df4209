//! How the cost grows: over the picture's size, over the slices of a plane, over the bits of a word;
//! the frame with the most slices; refusals at the last slice.

use crate::lent::Input;
use crate::pictures::{equal_words, frame, Kind, Size, FRAMES, RGBA, TIMED};
use crate::report::Row;
use crate::sides::{Sides, Spoil};
use crate::Options;
use compare::draft::Draft;

/// Who takes the rows, each as soon as it is measured.
pub type Sink<'a> = &'a mut dyn FnMut(Row);

/// Samples that a point's runs may decode on each side. A large frame is run a few times only.
const SAMPLES: usize = 60_000_000;

/// At least this often.
const FEWEST: usize = 5;

/// Measures a sound frame.
pub fn sound(mut row: Row, input: &Input, runs: usize, spoil: Spoil) -> Result<Row, String> {
    let sides = Sides::of(input, spoil).map_err(|what| format!("{}: {what}", row.name))?;
    row.figures = sides.figures(runs);
    row.runs = runs;
    Ok(row)
}

fn runs(input: &Input, options: &Options) -> usize {
    (SAMPLES / input.geometry.samples()).max(FEWEST).min(options.runs)
}

fn point(
    keyword: &'static str,
    name: String,
    at: usize,
    draft: &Draft,
    options: &Options,
) -> Result<Row, String> {
    let input = Input::of(draft);
    let row = Row::new(keyword, name, at, &input);
    sound(row, &input, runs(&input, options), options.spoil)
}

/// Every growth.
pub fn all(options: &Options, sink: Sink) -> Result<(), String> {
    sizes(options, sink)?;
    slices(options, sink)?;
    words(options, sink)?;
    most_slices(options, sink)?;
    refusals(options, sink)
}

/// From 320 by 180 to 7680 by 4320, ten slices a plane.
fn sizes(options: &Options, sink: Sink) -> Result<(), String> {
    for kind in &FRAMES[..2] {
        for width in [320, 640, 1280, 1920, 3840, 7680] {
            let height = width / 16 * 9;
            let size = Size { width, height, slice: height / 10 };
            let draft = frame(kind, &size);
            sink(point("size", kind.name(), width as usize, &draft, options)?);
        }
    }
    Ok(())
}

/// One picture of 128 columns and 16,384 rows, in 1 slice to 16,384 slices.
fn slices(options: &Options, sink: Sink) -> Result<(), String> {
    let (kind, height) = (&FRAMES[0], 16_384);
    for count in (0..8).map(|k| 4u32.pow(k)) {
        let draft = frame(kind, &Size { width: 128, height, slice: height / count });
        sink(point("slices", kind.name(), count as usize, &draft, options)?);
    }
    Ok(())
}

/// Words of 2 to 18 bits at 14 bits a sample, and to 12 bits at 8.
fn words(options: &Options, sink: Sink) -> Result<(), String> {
    for (depth, longest) in [(8, 12), (14, 18)] {
        for bits in (2..=longest).step_by(2) {
            let draft = equal_words(depth, bits, &TIMED);
            let name = format!("Gray {depth}-bit, words of one length");
            sink(point("words", name, bits as usize, &draft, options)?);
        }
    }
    Ok(())
}

/// 65,536 slices of one row each, and the same picture in four.
fn most_slices(options: &Options, sink: Sink) -> Result<(), String> {
    for slice in [1, 16_384] {
        let draft = frame(&RGBA, &Size { width: 32, height: 16_384, slice });
        sink(point("most", RGBA.name(), draft.slices.len(), &draft, options)?);
    }
    Ok(())
}

/// The whole frame, then refused by 13, 14 and 15 at its last slice.
fn refusals(options: &Options, sink: Sink) -> Result<(), String> {
    FRAMES[..2].iter().try_for_each(|kind| refusals_of(kind, options, sink))
}

fn refusals_of(kind: &Kind, options: &Options, sink: Sink) -> Result<(), String> {
    let draft = frame(kind, &TIMED);
    let whole = Input::of(&draft);
    sink(point("refusal", kind.name(), 0, &draft, options)?);
    for refused in [Input::refused_by_13, Input::refused_by_14, Input::refused_by_15] {
        let input = refused(&draft);
        let mut row = Row::new("refusal", kind.name(), input.number as usize, &input);
        let told = |what| format!("{}, refused by {}: {what}", row.name, row.at);
        let sides = Sides::refused(&input, &whole, options.spoil).map_err(told)?;
        row.runs = runs(&input, options);
        row.figures = sides.figures(row.runs);
        sink(row);
    }
    Ok(())
}
