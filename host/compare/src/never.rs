//! Two checks of the customer's Rust that never fire (request L10), counted by document 01's rules
//! ("Layout", "Refusal numbers").
//!
//! Its slice check subtracts with a guard, against a slice that begins at or below its plane's height.
//! Once checks 1 to 8 have passed none does, and each has a row. Its two sample decoders test a raw
//! payload's size again. Once the slice checks of all slices have passed too, none is too short. Rows
//! are computed as the Rust computes them, not by the model, which cuts a slice's first row at the
//! plane's height.
//!
//! A zero says something only where it could be otherwise. So what one check alone refuses is counted
//! apart, and a [`Check`] can be left out: the run must then report a difference.

use crate::our_side::Lent;
use magicyuv_host::model::words::Code;
use magicyuv_host::model::Entry;
use magicyuv_host::Family;
use std::collections::BTreeMap;

/// A check whose own refusals are counted apart.
#[derive(Clone, Copy, Debug, PartialEq, Eq, PartialOrd, Ord)]
pub enum Check {
    /// Row 2 of document 01's table.
    Two,
    /// Row 3.
    Three,
    /// Row 8, by a plane that already has K slices.
    Eight,
    /// Row 12, by a slice that ends past the frame.
    Bounds,
    /// Row 12, by a slice that has too few bytes.
    Size,
}

impl Check {
    /// All five.
    pub const ALL: [Check; 5] =
        [Check::Two, Check::Three, Check::Eight, Check::Bounds, Check::Size];

    /// Its word in the command and in reports.
    pub fn word(self) -> &'static str {
        match self {
            Check::Two => "2",
            Check::Three => "3",
            Check::Eight => "8",
            Check::Bounds => "bounds",
            Check::Size => "size",
        }
    }
}

/// What some checks say of a frame or of a slice.
#[derive(Clone, Copy, Debug, PartialEq, Eq)]
enum Verdict {
    /// None of them applies.
    Passed,
    /// This one alone applies.
    Only(Check),
    /// Another one applies, or more than one.
    Refused,
}

/// The slices of some frames, and those that a dead guard must not meet.
#[derive(Clone, Copy, Debug, Default, PartialEq, Eq)]
pub struct Begun {
    /// The frames.
    pub frames: u64,
    /// Their slices.
    pub slices: u64,
    /// Slices that begin at or below their plane's height.
    pub below: u64,
    /// Slices that have no row; those that begin at or below the height are among them.
    pub rowless: u64,
}

/// Some raw slices, and those that a dead second test must not meet.
#[derive(Clone, Copy, Debug, Default, PartialEq, Eq)]
pub struct Raw {
    /// The slices.
    pub slices: u64,
    /// Those whose payload is shorter than needed.
    pub short: u64,
}

/// The counts of a run. A group is named by the check that alone refuses it; none means passed.
#[derive(Clone, Debug, Default)]
pub struct Never {
    begun: BTreeMap<Option<Check>, Begun>,
    raw: BTreeMap<Option<Check>, Raw>,
    given: u64,
    checked: u64,
    left_out: u64,
}

/// One plane's figures.
#[derive(Clone, Copy, Debug)]
struct Plane {
    width: usize,
    height: usize,
    slice_height: usize,
}

/// A slice with the rows that the Rust gives it.
#[derive(Clone, Copy, Debug)]
struct Slice {
    plane: usize,
    place: usize,
    /// Its plane's figures.
    figures: Plane,
    /// Its first row, not cut at the plane's height.
    row_start: usize,
    /// The row after its last one, cut at the plane's height.
    row_end: usize,
    start: usize,
    end: usize,
}

impl Slice {
    fn begins_below(&self) -> bool {
        self.row_start >= self.figures.height
    }

    fn is_rowless(&self) -> bool {
        self.row_end <= self.row_start
    }

    /// Whether it is raw; none where the frame has no flag byte for it.
    fn is_raw(&self, frame: &[u8]) -> Option<bool> {
        frame.get(self.start).map(|flag| flag & 1 == 1)
    }

    /// The bytes that its samples need at so many bits each.
    fn needed(&self, bits: u32) -> usize {
        let rows = self.row_end.saturating_sub(self.row_start);
        (rows * self.figures.width * bits as usize).div_ceil(8)
    }

    /// The bytes of its payload that the frame has.
    fn payload(&self, frame: &[u8]) -> usize {
        self.end.min(frame.len()).saturating_sub(self.start + 2)
    }

    /// The five slice rows: end before start, end past the frame, shorter than 2, no word, too few bytes.
    fn verdict(&self, frame: &[u8], depth: u32, shortest: Option<u32>) -> Verdict {
        let bits = self.is_raw(frame).and_then(|raw| if raw { Some(depth) } else { shortest });
        let Some(bits) = bits else { return Verdict::Refused };
        let before = self.end < self.start;
        let past = self.end > frame.len();
        let prefixless = self.end < self.start + 2;
        let few = self.end.saturating_sub(self.start + 2) < self.needed(bits);
        match (before || prefixless, past, few) {
            (false, false, false) => Verdict::Passed,
            (false, true, false) => Verdict::Only(Check::Bounds),
            (false, false, true) => Verdict::Only(Check::Size),
            _ => Verdict::Refused,
        }
    }
}

/// The slices of a frame to which none of 1, 5, 6 and 7 applies and whose indices are all below P, and
/// what the rest of 1 to 8 says of it.
fn layout(lent: &Lent) -> Option<(Vec<Slice>, Verdict)> {
    let n = &lent.numbers;
    let planes = planes(lent)?;
    let bands = n.height.div_ceil(n.slice_height) as usize;
    let indices = indices(lent.frame, planes.len(), planes.len() * bands)?;
    let slices = slices(lent.frame, &planes, indices)?;
    let samples: usize = planes.iter().map(|p| p.width * p.height).sum();
    let two = n.width % n.sx != 0 || n.height % n.sy != 0;
    let three = n.slice_height % n.sy != 0;
    let four = lent.lengths.len() != planes.len() << n.depth || lent.samples != samples;
    let eight = slices.iter().any(|s| s.place >= bands);
    let verdict = match (two, three, four, eight) {
        (false, false, false, false) => Verdict::Passed,
        (true, false, false, false) => Verdict::Only(Check::Two),
        (false, true, false, false) => Verdict::Only(Check::Three),
        (false, false, false, true) => Verdict::Only(Check::Eight),
        _ => Verdict::Refused,
    };
    Some((slices, verdict))
}

/// The planes in wire order, unless row 1 applies.
fn planes(lent: &Lent) -> Option<Vec<Plane>> {
    let n = &lent.numbers;
    let family = *Family::ALL.get(n.family as usize)?;
    let size = |x: u32| (1..=16_384).contains(&x);
    let factor = |x: u32| x == 1 || (x == 2 && family.has_factors());
    let depth = match lent.entry {
        Entry::Eight => n.depth == 8,
        Entry::Sixteen => [10, 12, 14].contains(&n.depth),
    };
    let sizes = size(n.width) && size(n.height) && size(n.slice_height);
    if !(sizes && factor(n.sx) && factor(n.sy) && depth && n.interlaced <= 1) {
        return None;
    }
    let plane = |p: usize| {
        let reduced = family.has_factors() && (p == 1 || p == 2);
        let (sx, sy) = if reduced { (n.sx, n.sy) } else { (1, 1) };
        let divided = |x: u32, by: u32| (x / by) as usize;
        Plane {
            width: divided(n.width, sx),
            height: divided(n.height, sy),
            slice_height: divided(n.slice_height, sy),
        }
    };
    Some((0..family.planes()).map(plane).collect())
}

/// 32 + entry i.
fn start_of(frame: &[u8], i: usize) -> usize {
    let at = 32 + 4 * i;
    let bytes = [frame[at], frame[at + 1], frame[at + 2], frame[at + 3]];
    32 + u32::from_le_bytes(bytes) as usize
}

/// The T indices, unless 5, 6 or 7 applies.
fn indices(frame: &[u8], planes: usize, total: usize) -> Option<&[u8]> {
    let table_end = 32 + 4 * (total + 1);
    if frame.len() < table_end {
        return None;
    }
    let (count, rest) = frame.get(table_end..start_of(frame, 1))?.split_first()?;
    if *count as usize != planes {
        return None;
    }
    rest.get(..total)
}

/// The slices in wire order, unless an index is not below P. A place may be K or above.
fn slices(frame: &[u8], planes: &[Plane], indices: &[u8]) -> Option<Vec<Slice>> {
    let mut filled = vec![0usize; planes.len()];
    let mut out = Vec::with_capacity(indices.len());
    for (s, plane) in indices.iter().map(|i| *i as usize).enumerate() {
        let figures = *planes.get(plane)?;
        let place = filled[plane];
        filled[plane] += 1;
        let last = s + 1 == indices.len();
        out.push(Slice {
            plane,
            place,
            figures,
            row_start: place * figures.slice_height,
            row_end: ((place + 1) * figures.slice_height).min(figures.height),
            start: start_of(frame, s + 1),
            end: if last { frame.len() } else { start_of(frame, s + 2) },
        });
    }
    Some(out)
}

/// Each plane's shortest word, unless 9, 10 or 11 applies.
fn shortest_words(lent: &Lent) -> Option<Vec<Option<u32>>> {
    let planes = lent.lengths.chunks(1 << lent.numbers.depth);
    let codes: Vec<Code> = planes.map(|l| Code::of(l).ok()).collect::<Option<_>>()?;
    let need: usize = codes.iter().map(Code::need).sum();
    (lent.words >= need).then(|| codes.iter().map(Code::shortest).collect())
}

/// What had passed, for a message.
fn after(checks: &str, left_out: Option<Check>) -> String {
    match left_out {
        None => format!("after {checks}"),
        Some(check) => format!("after {checks} ({} left out)", check.word()),
    }
}

impl Begun {
    /// Counts a frame's slices; the first that begins at or below its plane's height or has no row.
    fn add(&mut self, slices: &[Slice]) -> Option<usize> {
        self.frames += 1;
        self.slices += slices.len() as u64;
        self.below += slices.iter().filter(|s| s.begins_below()).count() as u64;
        self.rowless += slices.iter().filter(|s| s.is_rowless()).count() as u64;
        slices.iter().position(|s| s.begins_below() || s.is_rowless())
    }
}

impl Raw {
    /// Counts a raw slice; whether the second test would fire.
    fn add(&mut self, has: usize, needed: usize) -> bool {
        self.slices += 1;
        self.short += u64::from(has < needed);
        has < needed
    }
}

impl Never {
    /// Counts one frame. Among what has passed, a slice without a row or with a payload that is too
    /// short is a difference.
    pub fn frame(&mut self, lent: &Lent, leave_out: Option<Check>) -> Result<(), String> {
        self.given += 1;
        let Some((slices, verdict)) = layout(lent) else { return Ok(()) };
        let refused = match verdict {
            Verdict::Passed => None,
            Verdict::Only(check) => Some(check),
            Verdict::Refused => return Ok(()),
        };
        let group = self.group(refused, leave_out);
        let fires = self.begun.entry(group).or_default().add(&slices);
        if let (None, Some(s)) = (group, fires) {
            let Slice { plane, place, figures, row_start, row_end, .. } = slices[s];
            let (after, height) = (after("checks 1 to 8", refused), figures.height);
            return Err(format!(
                "{after}: slice {s} (plane {plane}, place {place}) begins at row {row_start} and \
                 ends at row {row_end} of {height}"
            ));
        }
        match refused {
            None => self.payloads(lent, &slices, leave_out),
            Some(_) => Ok(()),
        }
    }

    /// The group in which something counts: what only the left-out check refuses counts as passed.
    fn group(&mut self, refused: Option<Check>, leave_out: Option<Check>) -> Option<Check> {
        let group = refused.filter(|check| leave_out != Some(*check));
        self.left_out += u64::from(group != refused);
        group
    }

    /// Counts the raw slices of a frame that passes 1 to 8.
    fn payloads(
        &mut self,
        lent: &Lent,
        slices: &[Slice],
        leave_out: Option<Check>,
    ) -> Result<(), String> {
        let Some(shortest) = shortest_words(lent) else { return Ok(()) };
        let (frame, depth) = (lent.frame, lent.numbers.depth);
        let verdict = |s: &Slice| s.verdict(frame, depth, shortest[s.plane]);
        let verdicts: Vec<Verdict> = slices.iter().map(verdict).collect();
        let all = verdicts.iter().all(|v| *v == Verdict::Passed);
        self.checked += u64::from(all);
        let mut outcome = Ok(());
        for s in (0..slices.len()).filter(|s| slices[*s].is_raw(frame) == Some(true)) {
            let refused = match verdicts[s] {
                Verdict::Passed if all => None,
                Verdict::Only(check) => Some(check),
                _ => continue,
            };
            let group = self.group(refused, leave_out);
            let (has, needed) = (slices[s].payload(frame), slices[s].needed(depth));
            let fires = self.raw.entry(group).or_default().add(has, needed);
            if fires && group.is_none() && outcome.is_ok() {
                let after = after("the slice checks", refused);
                outcome = Err(format!(
                    "{after}: raw slice {s} needs {needed} payload bytes and has {has}"
                ));
            }
        }
        outcome
    }

    /// Slices after checks 1 to 8 (none), or of the frames that 2, 3 or 8 alone refuses.
    pub fn begun(&self, refused: Option<Check>) -> Begun {
        self.begun.get(&refused).copied().unwrap_or_default()
    }

    /// Raw slices after all slice checks (none), or those that bounds or size alone refuses.
    pub fn raw(&self, refused: Option<Check>) -> Raw {
        self.raw.get(&refused).copied().unwrap_or_default()
    }

    /// Frames that pass 1 to 11 and the slice checks of all slices.
    pub fn checked(&self) -> u64 {
        self.checked
    }

    /// Where a check was left out and nothing fired: how much it alone refuses.
    pub fn nothing_left_out(&self, leave_out: Option<Check>) -> Option<u64> {
        let fired = self.begun(None).rowless > 0 || self.raw(None).short > 0;
        leave_out.filter(|_| !fired).map(|_| self.left_out)
    }

    /// The counts as a table.
    pub fn report(&self) -> String {
        let mut out =
            String::from("two checks that never fire (request L10), of all frames given once:\n");
        let mut line = |name: String, count: u64, of: u64| {
            out.push_str(&format!("  {name:<44}{count:>10} of {of:>10}\n"));
        };
        line("frames that pass 1 to 8".into(), self.begun(None).frames, self.given);
        line("of them, that pass the slice checks".into(), self.checked, self.begun(None).frames);
        for refused in [None, Some(Check::Two), Some(Check::Three), Some(Check::Eight)] {
            let (group, begun) = (group_name("1 to 8", refused), self.begun(refused));
            line(format!("{group}: begin at or below the height"), begun.below, begun.slices);
            line(format!("{group}: have no row"), begun.rowless, begun.slices);
        }
        for refused in [None, Some(Check::Bounds), Some(Check::Size)] {
            let (group, raw) = (group_name("slice checks", refused), self.raw(refused));
            line(format!("{group}: raw payload too short"), raw.short, raw.slices);
        }
        out
    }
}

/// A group in the table.
fn group_name(checks: &str, refused: Option<Check>) -> String {
    refused.map_or(format!("{checks} passed"), |check| format!("only {}", check.word()))
}

#[cfg(test)]
mod tests {
    use super::*;
    use magicyuv_host::{model, Geometry};

    /// A frame of raw slices, without descriptors.
    fn frame(planes: u8, indices: &[u8], slices: &[&[u8]]) -> Vec<u8> {
        let mut out = vec![0u8; 36];
        let mut entry = 4 * (slices.len() + 1) + 1 + indices.len();
        for slice in slices {
            out.extend((entry as u32).to_le_bytes());
            entry += slice.len();
        }
        out.push(planes);
        out.extend(indices);
        out.extend(slices.concat());
        out
    }

    /// The number that the model answers with no word in any plane, the counts, and the message with a
    /// check left out.
    fn asked(geometry: &Geometry, frame: &[u8], check: Check) -> (u32, Never, String) {
        let lent = Lent {
            entry: Entry::Eight,
            frame,
            lengths: &vec![0; geometry.length_bytes()],
            samples: geometry.samples(),
            words: geometry.family.planes(),
            numbers: geometry.numbers(),
        };
        let (samples, words) = (lent.samples, lent.words);
        let picture =
            model::picture(lent.entry, frame, lent.lengths, samples, words, &lent.numbers);
        let (mut counts, mut bent) = (Never::default(), Never::default());
        assert_eq!(counts.frame(&lent, None), Ok(()));
        let message = bent.frame(&lent, Some(check)).expect_err("a check fires");
        assert_eq!((counts.left_out, bent.left_out), (0, 1));
        (picture.map_or_else(|refusal| refusal.number, |_| 0), counts, message)
    }

    #[test]
    fn the_guard_is_for_what_2_3_and_8_refuse() {
        let halved = Geometry { sy: 2, ..Geometry::plain(Family::Yuv, 1, 1, 2, 8) };
        let bytes = frame(3, &[0, 1, 2], &[&[1, 1, 5], &[1, 1], &[1, 1]]);
        let (number, counts, message) = asked(&halved, &bytes, Check::Two);
        let begun = Begun { frames: 1, slices: 3, below: 2, rowless: 2 };
        assert_eq!((number, counts.begun(Some(Check::Two))), (2, begun));
        let rows = "slice 1 (plane 1, place 0) begins at row 0 and ends at row 0 of 0";
        assert_eq!(message, format!("after checks 1 to 8 (2 left out): {rows}"));

        let halved = Geometry { height: 2, slice_height: 1, ..halved };
        let bytes = frame(3, &[0, 0, 1, 1, 2, 2], &[&[1, 1, 5][..]; 6]);
        let (number, counts, message) = asked(&halved, &bytes, Check::Three);
        let begun = Begun { frames: 1, slices: 6, below: 0, rowless: 4 };
        assert_eq!((number, counts.begun(Some(Check::Three))), (3, begun));
        let rows = "slice 2 (plane 1, place 0) begins at row 0 and ends at row 0 of 1";
        assert_eq!(message, format!("after checks 1 to 8 (3 left out): {rows}"));

        let rgb = Geometry::plain(Family::Rgb, 1, 1, 1, 8);
        let bytes = frame(3, &[0, 0, 1], &[&[1, 1, 5][..]; 3]);
        let (number, counts, message) = asked(&rgb, &bytes, Check::Eight);
        let begun = Begun { frames: 1, slices: 3, below: 1, rowless: 1 };
        assert_eq!((number, counts.begun(Some(Check::Eight))), (8, begun));
        let rows = "slice 1 (plane 0, place 1) begins at row 1 and ends at row 1 of 1";
        assert_eq!(message, format!("after checks 1 to 8 (8 left out): {rows}"));
    }

    #[test]
    fn the_second_test_is_for_what_12_refuses() {
        let gray = Geometry::plain(Family::Gray, 1, 2, 1, 8);
        let bytes = frame(1, &[0, 0], &[&[1, 1, 5], &[1, 1, 6]]);
        let (number, counts, message) = asked(&gray, &bytes[..48], Check::Bounds);
        let raw = Raw { slices: 1, short: 1 };
        assert_eq!((number, counts.raw(Some(Check::Bounds))), (12, raw));
        let bytes = "raw slice 0 needs 1 payload bytes and has 0";
        assert_eq!(message, format!("after the slice checks (bounds left out): {bytes}"));

        let gray = Geometry { height: 1, ..gray };
        let (number, counts, message) = asked(&gray, &frame(1, &[0], &[&[1, 1]]), Check::Size);
        assert_eq!((number, counts.raw(Some(Check::Size))), (12, raw));
        assert_eq!(message, format!("after the slice checks (size left out): {bytes}"));
    }
}
