//! Decodes document 01's 46-byte frame and prints its answer and its samples.
#![forbid(unsafe_code)]

use magicyuv_host::{Family, Geometry};

fn main() {
    let mut frame = [0u8; 46];
    frame[36..].copy_from_slice(&[10, 0, 0, 0, 1, 0, 1, 1, 7, 5]);
    let numbers = Geometry::plain(Family::Gray, 2, 1, 1, 8).numbers();
    let (mut planes, mut workspace) = ([0xa5u8; 2], [0xa5a5_a5a5u32; 1]);
    let answer = plain::decode8(&frame, &[0; 256], &mut planes, &mut workspace, &numbers);
    println!("Gray 2x1, 8 bits, the frame of {} bytes: {answer}", frame.len());
    println!("  plane 0: {} {}", planes[0], planes[1]);
    println!("  workspace: {}", workspace[0]);
}
