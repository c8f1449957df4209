//! Document 01's 46-byte frame and its damages, and the stages of a decode.

use magicyuv_host::{Answer, Family, Geometry, Place};
use plain::Stage;

/// The 46-byte frame.
fn frame() -> Vec<u8> {
    let mut frame = vec![0u8; 32];
    frame.extend([0, 0, 0, 0, 10, 0, 0, 0, 1, 0, 1, 1, 7, 5]);
    frame
}

/// The 46-byte frame with one byte changed.
fn changed(at: usize, value: u8) -> Vec<u8> {
    let mut frame = frame();
    frame[at] = value;
    frame
}

/// Decodes a Gray frame of 2 by 1 on memory that holds something else; its workspace must be zero then.
fn decode(frame: &[u8]) -> (Answer, [u8; 2]) {
    let numbers = Geometry::plain(Family::Gray, 2, 1, 1, 8).numbers();
    let (mut planes, mut workspace) = ([0xa5; 2], [0xdead_beef; 4]);
    let answer = plain::decode8(frame, &[0; 256], &mut planes, &mut workspace, &numbers);
    assert_eq!(workspace, [0; 4]);
    (answer, planes)
}

#[test]
fn the_46_byte_frame() {
    let slice_0 = |number| Answer::Refused { number, place: Place::Slice(0) };
    assert_eq!(decode(&frame()), (Answer::Planes, [7, 12]));
    assert_eq!(decode(&frame()[..45]), (slice_0(12), [0, 0]));
    assert_eq!(decode(&changed(43, 0)), (slice_0(15), [0, 0]));
    for entry in [7, 8, 9] {
        assert_eq!(decode(&changed(36, entry)), (Answer::refused(6), [0, 0]));
    }
    assert_eq!(decode(&changed(40, 2)), (Answer::refused(7), [0, 0]));
}

/// The stages that a frame goes through.
fn stages(frame: &[u8], planes: &mut [u8], geometry: &Geometry) -> (Answer, Vec<Stage>) {
    let mut seen = Vec::new();
    let lengths = vec![0; geometry.length_bytes()];
    let mut enter = |stage| seen.push(stage);
    let numbers = geometry.numbers();
    let answer = plain::staged8(frame, &lengths, planes, &mut [9; 4], &numbers, &mut enter);
    (answer, seen)
}

#[test]
fn stages_come_in_order() {
    use Stage::{Checks, Clearing, Prediction, Tables, Words};
    let gray = Geometry::plain(Family::Gray, 2, 1, 1, 8);
    let whole = vec![Checks, Tables, Words, Prediction, Clearing];
    assert_eq!(stages(&frame(), &mut [9; 2], &gray), (Answer::Planes, whole));
    let refused = vec![Checks, Clearing];
    assert_eq!(stages(&frame()[..45], &mut [9; 2], &gray).1, refused);
    assert_eq!(stages(&frame(), &mut [9; 3], &gray), (Answer::refused(4), vec![Checks]));
    assert_eq!(stages(&changed(43, 4), &mut [9; 2], &gray).1, [Checks, Tables, Words, Clearing]);
}

/// Rgb has three slices here, and G is added at the end; B' 5, G 6, R' 7 give G 6, B 11, R 13.
#[test]
fn stages_of_rgb() {
    use Stage::{Checks, Clearing, Prediction, Tables, Words};
    let rgb = Geometry::plain(Family::Rgb, 1, 1, 1, 8);
    let mut frame = vec![0u8; 32];
    for entry in [0u32, 20, 23, 26] {
        frame.extend(entry.to_le_bytes());
    }
    frame.extend([3, 0, 1, 2, 1, 1, 5, 1, 1, 6, 1, 1, 7]);
    let mut planes = [9; 3];
    let slice = [Words, Prediction];
    let wanted = [&[Checks, Tables][..], &slice, &slice, &slice, &[Prediction, Clearing]].concat();
    assert_eq!(stages(&frame, &mut planes, &rgb), (Answer::Planes, wanted));
    assert_eq!(planes, [6, 11, 13]);
}
