//! The differences between document 01 and the customer's Rust outside the comparison's domain, each
//! with a small input, run on both sides. FINDINGS.md explains what this prints.

use compare::draft::Draft;
use compare::known_frames::{frame, geometry};
use compare::run::hex;
use compare::rust_side;
use compare::small::format;
use magicyuv_host::container;
use magicyuv_host::descriptors::{self, Lengths};
use magicyuv_host::model::{self, Entry};
use magicyuv_host::{core, Answer, Family, Geometry};
use std::process::ExitCode;

/// What our side answers to a frame with some lengths and workspace enough.
fn ours(bytes: &[u8], lengths: &[u8], geometry: &Geometry) -> String {
    let words = model::needs(lengths, geometry.depth).unwrap_or(0);
    let (mut workspace, count) = (vec![0u32; words], geometry.samples());
    let numbers = geometry.numbers();
    let (answer, samples) = if geometry.depth == 8 {
        let mut planes = vec![0u8; count];
        let answer = core().decode8(bytes, lengths, &mut planes, &mut workspace, &numbers);
        (answer, planes.into_iter().map(u16::from).collect::<Vec<u16>>())
    } else {
        let mut planes = vec![0u16; count];
        let answer = core().decode16(bytes, lengths, &mut planes, &mut workspace, &numbers);
        (answer, planes)
    };
    match answer {
        Answer::Planes => format!("accepted, samples {samples:?}"),
        refused => refused.to_string(),
    }
}

fn show(title: &str, bytes: &[u8], document: &str) {
    println!("== {title}");
    println!("frame of {} bytes: {}", bytes.len(), hex(bytes));
    println!("document 01: {document}");
    println!("the Rust:    {}\n", rust_side::error_text(bytes));
}

/// A frame with the lengths that it was drafted from.
fn show_draft(title: &str, draft: &Draft) {
    let bytes = draft.bytes();
    show(title, &bytes, &ours(&bytes, &draft.lengths.concat(), &draft.geometry));
}

fn one_sample(depth: u32, lengths: &[u8]) -> Draft {
    let gray = format(Family::Gray, 1, 1, depth);
    frame(&gray, geometry(&gray, 1, 1, 1), lengths)
}

fn length_caps() {
    for (depth, cap) in [(8, 12), (10, 14), (12, 16)] {
        let title = format!("length {} at depth {depth}", cap + 1);
        show_draft(&title, &one_sample(depth, &[cap + 1]));
    }
    show_draft("length 19 at depth 14, where both refuse", &one_sample(14, &[19]));
}

fn sizes() {
    let gray = format(Family::Gray, 1, 1, 8);
    let mut draft = frame(&gray, geometry(&gray, 1, 1, 1), &[]);
    for size in [16_384, 16_385, 32_768, 32_769, 0] {
        draft.geometry.slice_height = size;
        show_draft(&format!("slice height {size}"), &draft);
    }
}

/// Plane 0 over-full, or with a length above the cap, and no descriptor for plane 1.
fn descriptor_order() {
    let rgb = format(Family::Rgb, 1, 1, 8);
    for (what, lengths) in [("over-full", [1, 1, 1]), ("with a length of 19", [19, 0, 0])] {
        let mut draft = frame(&rgb, geometry(&rgb, 1, 1, 1), &[]);
        draft.lengths[0][..3].copy_from_slice(&lengths);
        draft.slices.iter_mut().for_each(|s| s.payload = vec![9]);
        let bytes = without_later_descriptors(&draft);
        let strict = descriptors::of_frame(&bytes, &draft.geometry, 12);
        let host = match strict {
            Lengths::Bad(fault) => format!("no lengths can be lent: {fault:?}"),
            other => format!("{other:?}"),
        };
        show(&format!("plane 0 {what}, then no descriptors"), &bytes, &host);
    }
}

/// The frame with its preamble cut after plane 0's descriptor; its count byte still says P.
fn without_later_descriptors(draft: &Draft) -> Vec<u8> {
    let mut short = draft.clone();
    short.lengths.truncate(1);
    let mut out = short.bytes();
    out[32 + 4 * (draft.slices.len() + 1)] = draft.lengths.len() as u8;
    out
}

fn places() {
    let mut draft = one_sample(8, &[]);
    draft.slices[0].predictor = 0;
    show_draft("predictor byte 0: the Rust names no slice", &draft);
}

fn bits_past_the_end() {
    let gray = format(Family::Gray, 1, 1, 8);
    let mut draft = frame(&gray, geometry(&gray, 6, 1, 1), &[1, 2, 2]);
    draft.slices[0].payload = vec![0x8c];
    draft.slices[0].predictor = 1;
    show_draft("8C under 1,2,2, six samples (both read zeros past the end)", &draft);
}

fn the_46_bytes() {
    let mut bytes = vec![0u8; 32];
    bytes.extend([0, 0, 0, 0, 10, 0, 0, 0, 1, 0, 1, 1, 7, 5]);
    let plain = Geometry::plain(Family::Gray, 2, 1, 1, 8);
    show("document 01's 46-byte frame", &bytes, &ours(&bytes, &[0; 256], &plain));
    show("its first 31 bytes", &bytes[..31], &ours(&bytes[..31], &[0; 256], &plain));
    assert!(container::parse(&bytes).is_err());
}

fn show_alone(title: &str, lengths: &[u8], n: usize, theirs: &str) {
    let mut workspace = vec![0u32; model::words::Code::of(lengths).map_or(1, |c| c.need())];
    let mut samples = vec![0u16; n];
    let answer = core().read(lengths, &[], &mut workspace, &mut samples);
    let shown = if lengths.len() > 9 { "16,385 zeros".to_string() } else { hex(lengths) };
    println!("== {title}\nlengths {shown}, empty payload, n = {n}");
    println!("document 01: {answer}\nthe Rust:    {theirs}\n");
}

fn built(lengths: &[u8]) -> &'static str {
    if rust_side::table(lengths).is_some() {
        "builds the table"
    } else {
        "refuses it"
    }
}

fn alone() {
    let empty = rust_side::table(&[]).expect("the Rust builds a table of no lengths");
    let read = rust_side::read(&empty, &[], 0);
    let theirs = if read.is_some() { "reads it" } else { "builds the table, fails to read" };
    show_alone("n = 0 with no word", &[], 0, theirs);
    show_alone("a length of 19 by itself", &[19], 1, built(&[19]));
    show_alone("16,385 lengths by themselves", &[0; 16_385], 1, built(&[0; 16_385]));
}

fn inexpressible() {
    println!("== geometries with no format in the Rust");
    println!("Yuv 1x2, Yuva 2x1, Yuva 1x2, Yuva 2x2, at each depth");
    let numbers = Geometry { sy: 2, ..Geometry::plain(Family::Yuva, 1, 2, 2, 8) }.numbers();
    let said = model::picture(Entry::Eight, &[], &[0; 1024], 6, 4, &numbers).unwrap_err();
    println!("document 01 judges Yuva 1x2 of 1 by 2 with an empty frame: {}\n", Answer::from(said));
}

/// Prints every finding.
pub fn print_all() -> ExitCode {
    length_caps();
    sizes();
    descriptor_order();
    places();
    bits_past_the_end();
    the_46_bytes();
    alone();
    inexpressible();
    ExitCode::SUCCESS
}
