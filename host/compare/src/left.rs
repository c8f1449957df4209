//! What document 01 says is left in lent memory, judged from the memory before a call, the answer and
//! the picture. Only `as_the_model` looks at how the model leaves it.

use crate::our_side::Outcome;

/// The first index at which two lists differ.
fn first_difference<T: PartialEq>(a: &[T], b: &[T]) -> Option<usize> {
    if a.len() != b.len() {
        return Some(a.len().min(b.len()));
    }
    a.iter().zip(b).position(|(x, y)| x != y)
}

fn same<T: PartialEq + std::fmt::Debug>(what: &str, got: &[T], wanted: &[T]) -> Result<(), String> {
    match first_difference(got, wanted) {
        None => Ok(()),
        Some(i) => Err(format!("{what} {i}: {:?}, and should be {:?}", got.get(i), wanted.get(i))),
    }
}

fn zero<T: Copy + PartialEq + From<u8> + std::fmt::Debug>(
    what: &str,
    got: &[T],
) -> Result<(), String> {
    same(what, got, &vec![T::from(0); got.len()])
}

fn as_found(outcome: &Outcome) -> Result<(), String> {
    same("sample as found", &outcome.samples, &outcome.samples_before)?;
    same("workspace word as found", &outcome.words, &outcome.words_before)
}

/// A frame entry: refusals 1 to 4 leave both as found, all others leave both zero; success leaves the
/// workspace zero and the picture.
pub fn frame(outcome: &Outcome, picture: Option<&[u16]>) -> Result<(), String> {
    match outcome.answer.number() {
        0 => {
            same("sample", &outcome.samples, picture.unwrap_or(&[]))?;
            zero("workspace word after success", &outcome.words)
        }
        1..=4 => as_found(outcome),
        _ => {
            zero("sample after a refusal", &outcome.samples)?;
            zero("workspace word after a refusal", &outcome.words)
        }
    }
}

/// A reading by itself: 4, 9, 10 and 11 leave both as found, 14 leaves both zero, success leaves the
/// workspace zero and the samples.
pub fn reading(outcome: &Outcome, samples: Option<&[u16]>) -> Result<(), String> {
    match outcome.answer.number() {
        0 => {
            same("sample", &outcome.samples, samples.unwrap_or(&[]))?;
            zero("workspace word after success", &outcome.words)
        }
        14 => {
            zero("sample after 14", &outcome.samples)?;
            zero("workspace word after 14", &outcome.words)
        }
        _ => as_found(outcome),
    }
}

/// A table by itself: a refusal leaves the workspace as found; success leaves the table's words and
/// those past the need as found.
pub fn table(outcome: &Outcome, table: Option<&[u32]>) -> Result<(), String> {
    match (outcome.answer.number(), table) {
        (0, Some(table)) => {
            let need = table.len();
            same("table word", &outcome.words[..need], table)?;
            same("word past the need", &outcome.words[need..], &outcome.words_before[need..])
        }
        (0, None) => Err("a table was built where none is".into()),
        _ => as_found(outcome),
    }
}

/// The model, asked the same on the same memory, must answer the same and leave the same.
pub fn as_the_model(ours: &Outcome, model: &Outcome) -> Result<(), String> {
    if ours.answer != model.answer {
        return Err(format!("ours {}, the model {}", ours.answer, model.answer));
    }
    same("by the model, sample", &ours.samples, &model.samples)?;
    same("by the model, workspace word", &ours.words, &model.words)
}
