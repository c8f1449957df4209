//! A test of the kind that shows little, kept beside `known.rs` so that `red/archives.sh` can show how little: it decodes
//! document 01's 46-byte frame into memory that already holds the answer. A decoder that writes nothing passes it.

use magicyuv_host::{decode8, Answer, Family, Geometry};

#[test]
fn memory_that_already_holds_the_answer() {
    let mut frame = vec![0u8; 32];
    frame.extend([0, 0, 0, 0, 10, 0, 0, 0, 1, 0, 1, 1, 7, 5]);
    let geometry = Geometry::plain(Family::Gray, 2, 1, 1, 8);
    let (mut planes, mut workspace) = ([7u8, 12], [0u32; 4]);
    let answer = decode8(&frame, &[0; 256], &mut planes, &mut workspace, &geometry);
    assert_eq!((answer, planes, workspace), (Answer::Planes, [7, 12], [0; 4]));
}
