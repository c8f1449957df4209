//! Whole MAGY frames through the host side that document 01 leaves to the host.

use magicyuv_host::container::{decode, header_bytes, parse, FrameFault, HeaderFault, Samples};
use magicyuv_host::descriptors::{planes, write, Fault};
use magicyuv_host::formats::{lookup, FORMATS};
use magicyuv_host::{Answer, Family, Geometry, Place};

fn frame(descriptor: &[u8], slice: &[u8]) -> Vec<u8> {
    let format = lookup(0x6b).expect("Gray at depth 8");
    let geometry = Geometry::plain(Family::Gray, 4, 1, 1, 8);
    let mut out = header_bytes(&format, &geometry).to_vec();
    out.extend([0; 4]);
    out.extend((10 + descriptor.len() as u32).to_le_bytes());
    out.extend([1, 0]);
    out.extend(descriptor);
    out.extend(slice);
    out
}

#[test]
fn a_coded_frame() {
    let bytes = frame(&[1, 2, 2, 0x80, 252], &[0, 1, 0x8c]);
    let (geometry, samples) = decode(&bytes).expect("a picture");
    assert_eq!((geometry.width, geometry.height), (4, 1));
    assert_eq!(samples, Samples::Bytes(vec![0, 1, 3, 3]));
}

#[test]
fn refusals_and_faults() {
    let sound = frame(&[1, 2, 2, 0x80, 252], &[0, 1, 0x8c]);
    let at_15 = Answer::Refused { number: 15, place: Place::Slice(0) };
    let refused = frame(&[1, 2, 2, 0x80, 252], &[0, 0, 0x8c]);
    assert_eq!(decode(&refused), Err(FrameFault::Refused(at_15)));
    let above = frame(&[13, 0x80, 254], &[0, 1, 0x8c]);
    let fault = Fault::AboveCap { plane: 0, length: 13 };
    assert_eq!(decode(&above), Err(FrameFault::Descriptor(fault)));
    let short = frame(&[1, 2, 2], &[0, 1, 0x8c]);
    assert_eq!(decode(&short), Err(FrameFault::Descriptor(Fault::Short { plane: 0 })));
    let mut bad_count = short.clone();
    bad_count[40] = 2;
    assert_eq!(decode(&bad_count), Err(FrameFault::Refused(Answer::refused(7))));
    assert_eq!(decode(&sound[..31]), Err(FrameFault::Header(HeaderFault::Short)));
    let mut large = sound;
    large[16..20].copy_from_slice(&16_385u32.to_le_bytes());
    assert_eq!(decode(&large), Err(FrameFault::Refused(Answer::refused(1))));
}

#[test]
fn headers_come_back() {
    for format in FORMATS {
        let geometry = Geometry {
            width: 6,
            height: 4,
            slice_height: 2,
            family: format.family,
            sx: format.sx,
            sy: format.sy,
            depth: format.depth,
            interlaced: format.byte % 2 == 0,
        };
        let header = parse(&header_bytes(&format, &geometry)).expect("a header");
        assert_eq!((header.format, header.geometry), (format, geometry));
    }
}

#[test]
fn descriptors_come_back() {
    let mut lengths = vec![0u8; 256];
    lengths[3..9].copy_from_slice(&[2, 2, 2, 5, 5, 1]);
    for shortest_run in 1..5 {
        let bytes = write(&lengths, shortest_run);
        assert_eq!(planes(&bytes, 1, 256, 12), Ok(lengths.clone()));
        let short = &bytes[..bytes.len() - 1];
        assert_eq!(planes(short, 1, 256, 12), Err(Fault::Short { plane: 0 }));
    }
    let overrunning = [0x81, 255, 0x80, 255];
    assert_eq!(planes(&overrunning, 1, 4, 12), Ok(vec![1; 4]));
}
