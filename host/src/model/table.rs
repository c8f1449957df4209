//! The words that a table built by itself leaves within its need.
//!
//! Document 01 leaves their content to the project's statement. The layout here is the project's: a
//! slot is 256 times the symbol plus the length, 0 where no word fits. For m up to 12 slot w is that
//! of the window w of m bits. Above, the first 4,096 slots are those of windows of 12 bits, 255 where
//! a longer word begins so, and slot 4,096 + w is that of the window w of m bits, for the S·2^(m-12)
//! windows whose first twelve bits begin a longer word.

use super::words::Code;

/// The mark of a window that longer words begin with.
const LONGER: u32 = 255;

fn slot(found: Option<(u32, u16)>) -> u32 {
    found.map_or(0, |(length, symbol)| 256 * u32::from(symbol) + length)
}

/// The words within the need.
pub fn words(code: &Code) -> Vec<u32> {
    match code.longest() {
        0 => vec![0],
        m if m <= 12 => (0..1 << m).map(|w| slot(code.word_in(w, m))).collect(),
        m => two_levels(code, m),
    }
}

fn two_levels(code: &Code, m: u32) -> Vec<u32> {
    let heads = code.heads() as u32;
    let first = |w: u32| if w < heads { LONGER } else { slot(code.word_in(w, 12)) };
    let mut out: Vec<u32> = (0..4_096).map(first).collect();
    out.extend((0..heads << (m - 12)).map(|w| slot(code.word_in(w, m))));
    out
}
