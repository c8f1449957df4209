//! Document 01's known answers, asked of the host's backing and of the model.

use magicyuv_host::model::words::Code;
use magicyuv_host::model::Model;
use magicyuv_host::{core, Answer, Core, Family, Geometry, Place};

fn both() -> [&'static dyn Core; 2] {
    [core(), &Model]
}

fn plane_0(number: u32) -> Answer {
    Answer::Refused { number, place: Place::Plane(0) }
}

/// The words of some lengths as text, by symbol.
fn words(lengths: &[u8]) -> Vec<(u16, String)> {
    let code = Code::of(lengths).expect("a code");
    let text = |(l, w, s): (u32, u32, u16)| (s, format!("{w:0width$b}", width = l as usize));
    let mut out: Vec<_> = code.words().map(text).collect();
    out.sort();
    out
}

fn texts(list: &[(u16, &str)]) -> Vec<(u16, String)> {
    list.iter().map(|(s, w)| (*s, w.to_string())).collect()
}

#[test]
fn words_of_short_codes() {
    assert_eq!(words(&[1, 2, 2]), texts(&[(0, "1"), (1, "00"), (2, "01")]));
    assert_eq!(words(&[2, 2, 2]), texts(&[(0, "00"), (1, "01"), (2, "10")]));
    assert_eq!(words(&[1]), texts(&[(0, "0")]));
    assert_eq!(words(&[0, 3, 1]), texts(&[(1, "000"), (2, "1")]));
    let three = texts(&[(0, "000"), (1, "001"), (2, "010"), (3, "1")]);
    assert_eq!(words(&[3, 3, 3, 1]), three);
    assert_eq!(words(&[13, 1]), texts(&[(0, "0000000000000"), (1, "1")]));
}

#[test]
fn needs() {
    for (lengths, need) in [(&[1u8, 2, 2][..], 4), (&[0, 0], 1), (&[], 1), (&[13, 1], 4_098)] {
        assert_eq!(Code::of(lengths).expect("a code").need(), need);
        for side in both() {
            let mut workspace = vec![77u32; need];
            assert_eq!(side.build(lengths, &mut workspace), Answer::Planes);
            let mut short = vec![77u32; need - 1];
            assert_eq!(side.build(lengths, &mut short), Answer::refused(11));
            assert!(short.iter().all(|w| *w == 77));
        }
    }
}

#[test]
fn tables_refused() {
    for side in both() {
        let mut workspace = [5u32; 8];
        assert_eq!(side.build(&[1, 1, 1], &mut workspace), plane_0(10));
        assert_eq!(side.build(&[1, 2, 2, 2], &mut workspace), plane_0(10));
        assert_eq!(side.build(&[19], &mut workspace), plane_0(9));
        assert_eq!(side.build(&[0; 16_385], &mut workspace), Answer::refused(4));
        assert_eq!(workspace, [5; 8]);
    }
}

fn reading(side: &dyn Core, lengths: &[u8], payload: &[u8], n: usize) -> (Answer, Vec<u16>) {
    let (mut workspace, mut samples) = ([9u32; 4_098], vec![9u16; n]);
    let answer = side.read(lengths, payload, &mut workspace, &mut samples);
    if [0, 14].contains(&answer.number()) {
        assert_eq!(workspace, [0; 4_098]);
    }
    (answer, samples)
}

#[test]
fn readings() {
    for side in both() {
        let read = |l: &[u8], p: &[u8], n| reading(side, l, p, n);
        assert_eq!(read(&[1, 2, 2], &[0x8c], 4), (Answer::Planes, vec![0, 1, 2, 0]));
        assert_eq!(read(&[1, 2, 2], &[0x8c], 6), (Answer::Planes, vec![0, 1, 2, 0, 1, 1]));
        assert_eq!(read(&[2, 2, 2], &[0xc0], 1), (plane_0(14), vec![0]));
        assert_eq!(read(&[1], &[0x80], 1), (plane_0(14), vec![0]));
        assert_eq!(read(&[0, 0], &[0x80], 1), (plane_0(14), vec![0]));
        assert_eq!(read(&[0, 0], &[0x80], 0), (Answer::Planes, vec![]));
    }
}

/// The 46-byte frame.
fn frame() -> Vec<u8> {
    let mut frame = vec![0u8; 32];
    frame.extend([0, 0, 0, 0, 10, 0, 0, 0, 1, 0, 1, 1, 7, 5]);
    frame
}

fn decode(side: &dyn Core, frame: &[u8], g: &Geometry) -> (Answer, Vec<u8>) {
    let mut planes = vec![0xa5u8; g.samples()];
    let mut workspace = [0xdead_beefu32; 4];
    let lengths = vec![0; g.length_bytes()];
    let answer = side.decode8(frame, &lengths, &mut planes, &mut workspace, &g.numbers());
    (answer, planes)
}

#[test]
fn the_46_byte_frame() {
    let g = Geometry::plain(Family::Gray, 2, 1, 1, 8);
    let at = |i: usize, value: u8| {
        let mut changed = frame();
        changed[i] = value;
        changed
    };
    let slice_0 = |number| Answer::Refused { number, place: Place::Slice(0) };
    for side in both() {
        assert_eq!(decode(side, &frame(), &g), (Answer::Planes, vec![7, 12]));
        assert_eq!(decode(side, &frame()[..45], &g), (slice_0(12), vec![0, 0]));
        assert_eq!(decode(side, &at(43, 0), &g), (slice_0(15), vec![0, 0]));
        for entry in [7, 8, 9] {
            assert_eq!(decode(side, &at(36, entry), &g), (Answer::refused(6), vec![0, 0]));
        }
        assert_eq!(decode(side, &at(40, 2), &g), (Answer::refused(7), vec![0, 0]));
    }
}

#[test]
fn indices_0_0_1() {
    let g = Geometry::plain(Family::Rgb, 1, 1, 1, 8);
    let mut frame = vec![0u8; 32];
    for entry in [0u32, 20, 23, 26] {
        frame.extend(entry.to_le_bytes());
    }
    frame.extend([3, 0, 0, 1, 1, 1, 5, 1, 1, 6, 1, 1, 7]);
    let refused = Answer::Refused { number: 8, place: Place::Slice(1) };
    for side in both() {
        assert_eq!(decode(side, &frame, &g), (refused, vec![0; 3]));
        let mut sound = frame.clone();
        sound[50..52].copy_from_slice(&[1, 2]);
        assert_eq!(decode(side, &sound, &g), (Answer::Planes, vec![6, 11, 13]));
    }
}

/// A raw Gray frame of one slice.
fn gray(depth: u32, width: u32, predictor: u8, payload: &[u8]) -> (Geometry, Vec<u8>) {
    let g = Geometry::plain(Family::Gray, width, 2, 2, depth);
    let mut frame = vec![0u8; 32];
    frame.extend([0, 0, 0, 0, 10, 0, 0, 0, 1, 0, 1, predictor]);
    frame.extend(payload);
    (g, frame)
}

#[test]
fn predictors_at_depth_8() {
    let rows = [(1, [11, 13, 16]), (2, [11, 18, 15]), (3, [11, 17, 14])];
    for (predictor, row) in rows {
        let (g, frame) = gray(8, 3, predictor, &[10, 5, 250, 1, 2, 3]);
        let wanted = [&[10, 15, 9][..], &row].concat();
        for side in both() {
            assert_eq!(decode(side, &frame, &g), (Answer::Planes, wanted.clone()));
        }
    }
}

/// Left 200, top 100, top-left 10: 100 at depth 8 and 200 at depth 10.
#[test]
fn the_two_medians() {
    let (g, frame) = gray(8, 2, 3, &[10, 90, 190, 0]);
    for side in both() {
        assert_eq!(decode(side, &frame, &g).1, [10, 100, 200, 100]);
    }
    let packed = [0x02, 0x85, 0xa2, 0xf8, 0x00];
    let (g, frame) = gray(10, 2, 3, &packed);
    for side in both() {
        let (mut planes, mut workspace) = ([9u16; 4], [9u32; 1]);
        let answer = side.decode16(&frame, &[0; 1024], &mut planes, &mut workspace, &g.numbers());
        assert_eq!((answer, planes), (Answer::Planes, [10, 100, 200, 200]));
    }
}

#[test]
fn raw_depth_10() {
    let mut g = Geometry::plain(Family::Gray, 2, 1, 1, 10);
    g.height = 2;
    let mut frame = vec![0u8; 32];
    frame.extend([0, 0, 0, 0, 15, 0, 0, 0, 20, 0, 0, 0, 1, 0, 0]);
    frame.splice(44.., [1, 0, 0, 1, 1, 0xff, 0xc0, 0x00, 1, 1, 0xff, 0xc0, 0x00]);
    for side in both() {
        let (mut planes, mut workspace) = ([9u16; 4], [9u32; 1]);
        let answer = side.decode16(&frame, &[0; 1024], &mut planes, &mut workspace, &g.numbers());
        assert_eq!((answer, planes), (Answer::Planes, [1023, 1023, 1023, 1023]));
    }
}

/// B' = 1020 and G = 10 at depth 10 give B = 6.
#[test]
fn decorrelation_at_depth_10() {
    let g = Geometry::plain(Family::Rgb, 1, 1, 1, 10);
    let mut frame = vec![0u8; 32];
    for entry in [0u32, 20, 24, 28] {
        frame.extend(entry.to_le_bytes());
    }
    frame.extend([3, 0, 1, 2, 1, 1, 0xff, 0x00, 1, 1, 0x02, 0x80, 1, 1, 0x00, 0x40]);
    for side in both() {
        let (mut planes, mut workspace) = ([9u16; 3], [9u32; 3]);
        let lengths = vec![0; 3 * 1024];
        let answer = side.decode16(&frame, &lengths, &mut planes, &mut workspace, &g.numbers());
        assert_eq!((answer, planes), (Answer::Planes, [10, 6, 11]));
    }
}
