//! Code lengths for generated frames: complete, under-full, over-full and empty codes, lengths around
//! 12 and 13 and up to 18 (document 01, "Words and lookup").

use crate::rng::Rng;

/// What the shares of a generated list come to.
#[derive(Clone, Copy, Debug, PartialEq, Eq)]
pub enum Kind {
    /// No word.
    Empty,
    /// One word.
    Single,
    /// Shares of exactly one.
    Complete,
    /// Shares below one.
    Under,
    /// Shares above one.
    Over,
    /// Shares above one by the smallest share that the cap allows.
    OverByLeast,
    /// Every symbol the same length.
    Flat,
    /// Lengths of 11 to 14, as far as the cap goes.
    AroundTwelve,
    /// A chain down to the cap.
    Deep,
    /// A length above the cap.
    AboveCap,
    /// A length above 18.
    AboveEighteen,
}

/// The kinds that a sound frame has most often, then the others.
const USUAL: [Kind; 8] = [
    Kind::Complete,
    Kind::Complete,
    Kind::Complete,
    Kind::Under,
    Kind::Under,
    Kind::AroundTwelve,
    Kind::Deep,
    Kind::Single,
];
const RARE: [Kind; 6] =
    [Kind::Empty, Kind::Flat, Kind::Over, Kind::OverByLeast, Kind::AboveCap, Kind::AboveEighteen];

/// A kind, a rare one in `rare` of a hundred cases.
pub fn kind(rng: &mut Rng, rare: usize) -> Kind {
    if rng.chance(rare) {
        rng.pick(&RARE)
    } else {
        rng.pick(&USUAL)
    }
}

/// Lengths for n symbols, none above the cap unless the kind says so.
pub fn lengths(rng: &mut Rng, n: usize, cap: u8, kind: Kind) -> Vec<u8> {
    let words = match kind {
        Kind::Empty => vec![],
        Kind::Single => vec![rng.between(1, cap as usize) as u8],
        Kind::Complete => complete(rng, n, cap),
        Kind::Under => under(rng, n, cap),
        Kind::Over => over(rng, n, cap),
        Kind::OverByLeast => over_by_least(rng, n, cap),
        Kind::Flat => vec![flat_length(n, cap); n],
        Kind::AroundTwelve => around_twelve(rng, n, cap),
        Kind::Deep => deep(n, cap),
        Kind::AboveCap => with_one(rng, n, cap, cap as usize + 1, 18.max(cap as usize + 1)),
        Kind::AboveEighteen => with_one(rng, n, cap, 19, 127),
    };
    scatter(rng, n, words)
}

/// Splits words at random until there are some; shares stay at exactly one.
fn complete(rng: &mut Rng, n: usize, cap: u8) -> Vec<u8> {
    if n < 2 {
        return vec![1; n];
    }
    let most = if rng.chance(3) { n } else { n.min(40) };
    let wanted = rng.between(2, most);
    let lean = rng.below(101);
    let mut words = vec![1u8, 1];
    while words.len() < wanted {
        let at = if rng.chance(lean) { words.len() - 1 } else { rng.below(words.len()) };
        if words[at] >= cap {
            if words.iter().all(|w| *w >= cap) {
                break;
            }
            continue_at_shallow(&mut words, cap);
            continue;
        }
        words[at] += 1;
        words.push(words[at]);
    }
    words
}

/// Splits the first word that is still below the cap.
fn continue_at_shallow(words: &mut Vec<u8>, cap: u8) {
    if let Some(at) = words.iter().position(|w| *w < cap) {
        words[at] += 1;
        words.push(words[at]);
    }
}

/// A complete code with some words taken away or made longer.
fn under(rng: &mut Rng, n: usize, cap: u8) -> Vec<u8> {
    let mut words = complete(rng, n, cap);
    for _ in 0..rng.between(1, 3) {
        if words.len() > 1 && rng.chance(50) {
            words.remove(rng.below(words.len()));
        } else {
            let at = rng.below(words.len());
            words[at] = (words[at] + 1).min(cap);
        }
    }
    words
}

/// A complete code with a word too many, or with words made shorter.
fn over(rng: &mut Rng, n: usize, cap: u8) -> Vec<u8> {
    let mut words = complete(rng, n, cap);
    if words.len() < n && rng.chance(60) {
        words.push(rng.between(1, cap as usize) as u8);
        return words;
    }
    let at = rng.below(words.len());
    words[at] = words[at].saturating_sub(1).max(1);
    words
}

/// A complete chain down to the cap, and one word of the cap too many.
fn over_by_least(rng: &mut Rng, n: usize, cap: u8) -> Vec<u8> {
    let mut words = deep(n, cap);
    if words.len() < n && rng.chance(80) {
        words.push(cap);
    }
    words
}

/// The length at which n words fit.
fn flat_length(n: usize, cap: u8) -> u8 {
    (n.next_power_of_two().trailing_zeros() as u8).clamp(1, cap)
}

/// Words of 11 to 14 bits, fewer than would fill the code, and sometimes one short word.
fn around_twelve(rng: &mut Rng, n: usize, cap: u8) -> Vec<u8> {
    let count = rng.between(1, n.min(60));
    let mut words: Vec<u8> = (0..count).map(|_| (rng.between(11, 14) as u8).min(cap)).collect();
    if count < n && rng.chance(60) {
        words.push(1);
    }
    words
}

/// 1, 2, 3, .. down to the cap, the last length twice, as far as n symbols go.
fn deep(n: usize, cap: u8) -> Vec<u8> {
    let mut words: Vec<u8> = (1..=cap).take(n).collect();
    if words.len() < n {
        words.push(cap);
    }
    words
}

/// An under-full code with one length from a to b.
fn with_one(rng: &mut Rng, n: usize, cap: u8, a: usize, b: usize) -> Vec<u8> {
    let mut words = under(rng, n, cap);
    let at = rng.below(words.len());
    words[at] = rng.between(a, b) as u8;
    words
}

/// Gives the words to symbols, close together or all over, and the rest no word.
fn scatter(rng: &mut Rng, n: usize, words: Vec<u8>) -> Vec<u8> {
    let mut out = vec![0u8; n];
    if rng.chance(50) {
        out[..words.len()].copy_from_slice(&words);
        return out;
    }
    let mut free: Vec<usize> = (0..n).collect();
    for word in words {
        let at = rng.below(free.len());
        out[free.swap_remove(at)] = word;
    }
    out
}
