//! What differs between byte samples and 16-bit samples. All else is one generic text.

use crate::bits::BitReader;

/// A sample of the plane buffer.
pub trait Sample: Copy + Default {
    /// Whether the entry of these samples takes a depth.
    fn takes(depth: u32) -> bool;

    /// The sample of a value below 2^depth.
    fn of(value: u32) -> Self;

    /// The sample as a number.
    fn value(self) -> u32;

    /// A value modulo 2^depth, `mask` being 2^depth - 1.
    fn modulo(value: u32, mask: u32) -> Self;

    /// The Median predictor, which is not the same at depth 8 and above.
    fn median(left: u32, top: u32, top_left: u32) -> u32;

    /// Raw samples: bytes at depth 8, above it packed at depth bits, highest bit first.
    fn raw(payload: &[u8], samples: &mut [Self], depth: u32);
}

impl Sample for u8 {
    fn takes(depth: u32) -> bool {
        depth == 8
    }

    #[inline]
    fn of(value: u32) -> u8 {
        value as u8
    }

    #[inline]
    fn value(self) -> u32 {
        self.into()
    }

    /// A byte needs no mask.
    #[inline]
    fn modulo(value: u32, _mask: u32) -> u8 {
        value as u8
    }

    /// The gradient modulo 256, clamped between the smaller and the larger of left and top.
    #[inline]
    fn median(left: u32, top: u32, top_left: u32) -> u32 {
        let gradient = left.wrapping_add(top.wrapping_sub(top_left)) & 0xff;
        gradient.min(left.max(top)).max(left.min(top))
    }

    fn raw(payload: &[u8], samples: &mut [u8], _depth: u32) {
        samples.copy_from_slice(&payload[..samples.len()]);
    }
}

impl Sample for u16 {
    fn takes(depth: u32) -> bool {
        matches!(depth, 10 | 12 | 14)
    }

    #[inline]
    fn of(value: u32) -> u16 {
        value as u16
    }

    #[inline]
    fn value(self) -> u32 {
        self.into()
    }

    #[inline]
    fn modulo(value: u32, mask: u32) -> u16 {
        (value & mask) as u16
    }

    /// T.87: the one in the middle of left, top and the exact left + top - top-left. That is its rule
    /// by cases: the exact gradient is at most the smaller just where top-left is at least the larger.
    #[inline]
    fn median(left: u32, top: u32, top_left: u32) -> u32 {
        let (left, top, top_left) = (left as i32, top as i32, top_left as i32);
        let gradient = left + (top - top_left);
        gradient.min(left.max(top)).max(left.min(top)) as u32
    }

    fn raw(payload: &[u8], samples: &mut [u16], depth: u32) {
        let mut reader = BitReader::new(payload);
        // Four samples take at most 56 bits, which is what a refill is good for.
        let mut fours = samples.chunks_exact_mut(4);
        for four in &mut fours {
            unpack(&mut reader, four, depth);
        }
        unpack(&mut reader, fours.into_remainder(), depth);
    }
}

/// Up to four samples of depth bits each.
#[inline]
fn unpack(reader: &mut BitReader, samples: &mut [u16], depth: u32) {
    reader.refill();
    for sample in samples {
        *sample = reader.peek(depth) as u16;
        reader.consume(depth);
    }
}
