//! Tables and readings by themselves against the Rust's own table (document 01, "Words and lookup").

use crate::frame_check::Comparison;
use crate::left;
use crate::our_side::{Ours, Outcome};
use crate::rust_side;
use magicyuv_host::model::words::Code;
use magicyuv_host::model::{bits, table};
use magicyuv_host::{Answer, Backing, Place};
use oracle::huffman::HuffmanTable;

/// The most lengths of a table by itself.
const MOST: usize = 16_384;

/// What the Rust and document 01 say of some lengths.
struct Judged {
    /// The refusal that the lengths alone give.
    refused: Option<Answer>,
    /// The code where there is one.
    code: Option<Code>,
    /// The Rust's table where it was asked and built one.
    theirs: Option<HuffmanTable>,
}

fn at_plane_0(number: u32) -> Answer {
    Answer::Refused { number, place: Place::Plane(0) }
}

/// Asks the Rust where it can be asked: up to 16,384 lengths of at most 18.
fn judge(lengths: &[u8]) -> Result<Judged, String> {
    let refused = |answer| Ok(Judged { refused: Some(answer), code: None, theirs: None });
    if lengths.len() > MOST {
        return refused(Answer::refused(4));
    }
    if lengths.iter().any(|l| *l > 18) {
        return refused(at_plane_0(9));
    }
    let theirs = rust_side::guarded(|| rust_side::table(lengths)).ok_or("the Rust panicked")?;
    match (theirs, Code::of(lengths)) {
        (None, Err(_)) => refused(at_plane_0(10)),
        (Some(theirs), Ok(code)) => {
            same_words(&theirs, &code, lengths)?;
            Ok(Judged { refused: None, code: Some(code), theirs: Some(theirs) })
        }
        (theirs, code) => Err(format!(
            "the Rust {} a table, document 01 {}",
            if theirs.is_some() { "builds" } else { "refuses" },
            if code.is_ok() { "builds" } else { "refuses" }
        )),
    }
}

/// Every symbol's word must be the Rust's.
fn same_words(theirs: &HuffmanTable, code: &Code, lengths: &[u8]) -> Result<(), String> {
    let mut seen = 0;
    for (length, word, symbol) in code.words() {
        let at = symbol as usize;
        if u32::from(lengths[at]) != length || theirs.codes()[at] != word {
            let other = theirs.codes()[at];
            return Err(format!("symbol {symbol}: word {word} of {length} bits, the Rust {other}"));
        }
        seen += 1;
    }
    if seen != lengths.iter().filter(|l| **l > 0).count() {
        return Err("a symbol has no word".into());
    }
    Ok(())
}

impl Comparison {
    /// Builds a table by itself: with workspace enough, with one word short, and with more.
    pub fn table(&mut self, lengths: &[u8], seed: u64) -> Result<(), String> {
        let judged = judge(lengths)?;
        let words = judged.code.as_ref().map(table::words);
        let need = words.as_ref().map_or(2, Vec::len);
        for count in [need, need + 3, need - 1] {
            let wanted = match &judged.refused {
                Some(answer) => *answer,
                None if count < need => Answer::refused(11),
                None => Answer::Planes,
            };
            self.tally.tables[wanted.number() as usize] += 1;
            for flip in [false, true] {
                let outcome = self.ours.build(lengths, count, seed, flip);
                answered(&outcome, wanted)?;
                left::table(&outcome, words.as_deref())?;
                self.third(&outcome, &Ours::model().build(lengths, count, seed, flip))?;
            }
        }
        Ok(())
    }

    /// Looks words up in a built table, at bit positions of a payload, against the Rust's.
    pub fn lookups(&mut self, lengths: &[u8], payload: &[u8], seed: u64) -> Result<(), String> {
        let judged = judge(lengths)?;
        let (Some(code), Some(theirs)) = (judged.code, judged.theirs) else { return Ok(()) };
        let built = self.ours.build(lengths, code.need(), seed, false);
        for position in 0..8 * payload.len() + 20 {
            let found = lookup(&built.words, code.longest(), payload, position);
            let symbol = rust_side::symbol_at(&theirs, payload, position);
            let wanted = code.word_at(payload, position);
            if found.map(|(_, s)| s) != symbol || found != wanted {
                return Err(format!(
                    "bit {position}: {found:?}, the model {wanted:?}, the Rust {symbol:?}"
                ));
            }
        }
        Ok(())
    }

    /// Reads n samples by itself.
    pub fn reading(
        &mut self,
        lengths: &[u8],
        payload: &[u8],
        n: usize,
        spare: usize,
        seed: u64,
    ) -> Result<(), String> {
        let judged = judge(lengths)?;
        let need = judged.code.as_ref().map_or(1, Code::need);
        let samples = match (&judged.theirs, &judged.code) {
            (Some(theirs), Some(code)) => self.their_samples(theirs, code, payload, n, lengths)?,
            _ => None,
        };
        let wanted = match (&judged.refused, &samples) {
            (Some(answer), _) => *answer,
            (None, Some(_)) => Answer::Planes,
            (None, None) => at_plane_0(14),
        };
        self.tally.readings[wanted.number() as usize] += 1;
        for flip in [false, true] {
            let outcome = self.ours.read(lengths, payload, need + spare, n, seed, flip);
            answered(&outcome, wanted)?;
            left::reading(&outcome, samples.as_deref())?;
            let model = Ours::model().read(lengths, payload, need + spare, n, seed, flip);
            self.third(&outcome, &model)?;
        }
        self.short_workspace(lengths, payload, n, need, judged.refused, seed)
    }

    /// The same reading with a workspace one short: 11, or what comes before it.
    fn short_workspace(
        &mut self,
        lengths: &[u8],
        payload: &[u8],
        n: usize,
        need: usize,
        refused: Option<Answer>,
        seed: u64,
    ) -> Result<(), String> {
        let wanted = refused.unwrap_or(Answer::refused(11));
        self.tally.readings[wanted.number() as usize] += 1;
        let outcome = self.ours.read(lengths, payload, need - 1, n, seed, false);
        answered(&outcome, wanted)?;
        left::reading(&outcome, None)
    }

    /// What the Rust reads; for n = 0 without a word document 01 differs from it and decides.
    fn their_samples(
        &mut self,
        theirs: &HuffmanTable,
        code: &Code,
        payload: &[u8],
        n: usize,
        lengths: &[u8],
    ) -> Result<Option<Vec<u16>>, String> {
        let wide = rust_side::read(theirs, payload, n);
        if n == 0 && code.shortest().is_none() {
            let reason = "n = 0 with no word: the Rust refuses";
            *self.tally.alone_outside.entry(reason).or_default() += 1;
            return if wide.is_none() { Ok(Some(vec![])) } else { Err("n = 0 is read".into()) };
        }
        if lengths.len() <= 256 && rust_side::read8(theirs, payload, n) != wide {
            return Err("the Rust's byte reading differs from its wide one".into());
        }
        Ok(wide)
    }

    /// Where ours is the archive, the model must leave the same.
    fn third(&self, ours: &Outcome, model: &Outcome) -> Result<(), String> {
        match magicyuv_host::backing() {
            Backing::Archive => left::as_the_model(ours, model),
            Backing::Model => Ok(()),
        }
    }
}

fn answered(outcome: &Outcome, wanted: Answer) -> Result<(), String> {
    if outcome.answer == wanted {
        Ok(())
    } else {
        Err(format!("ours {}, and should be {wanted}", outcome.answer))
    }
}

/// The word at a position, from a table's words and m alone.
fn lookup(words: &[u32], m: u32, payload: &[u8], position: usize) -> Option<(u32, u16)> {
    // A wrong table may point past its own end; that is no word, and is reported as such.
    let slot = |at: usize| {
        let word = words.get(at).copied().unwrap_or(0);
        (word % 256 != 0).then_some((word % 256, (word / 256) as u16))
    };
    if m <= 12 {
        return slot(bits::window(payload, position, m) as usize);
    }
    match slot(bits::window(payload, position, 12) as usize) {
        Some((255, _)) => slot(4_096 + bits::window(payload, position, m) as usize),
        other => other,
    }
}
