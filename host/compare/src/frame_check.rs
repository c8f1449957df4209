//! One frame to both sides (document 01, "What comes in": the comparison's domain). The Rust's answer
//! must belong to our number's row, with the same place where it gives one and the same planes; what
//! is left in memory is judged twice, on noise and on its complement.

use crate::domain::{self, Standing};
use crate::left;
use crate::made_of::made_of;
use crate::never::Check;
use crate::our_side::{Lent, Ours, Outcome};
use crate::rng::Rng;
use crate::rust_side::{self, Said};
use crate::tally::Tally;
use magicyuv_host::container::{Header, HeaderFault};
use magicyuv_host::model::{self, Entry};
use magicyuv_host::{Answer, Backing, Geometry, Numbers, Place};

/// Both sides and the counts.
pub struct Comparison {
    /// Our side.
    pub ours: Ours,
    /// The counts.
    pub tally: Tally,
    /// What the count of two checks that never fire leaves out.
    pub leave_out: Option<Check>,
}

/// The entry for a depth.
pub fn entry_of(depth: u32) -> Entry {
    if depth == 8 {
        Entry::Eight
    } else {
        Entry::Sixteen
    }
}

/// What the Rust's answer asks of ours.
enum Asked<'a> {
    /// The same answer: the frame is in the domain.
    Same(&'a Said),
    /// Nothing: only document 01 is asked.
    Nothing,
}

impl Comparison {
    /// A comparison with nothing counted yet.
    pub fn new(ours: Ours) -> Comparison {
        Comparison { ours, tally: Tally::default(), leave_out: None }
    }

    /// Gives one frame to both sides. `seed` decides the noise and what else is lent.
    pub fn frame(&mut self, bytes: &[u8], seed: u64) -> Result<(), String> {
        self.tally.frames += 1;
        let said = rust_side::decode(bytes);
        if said == Said::Panicked {
            return Err("the Rust panicked".into());
        }
        match domain::standing(bytes, &said) {
            Standing::NoHeader(fault) => self.no_header(&said, fault),
            Standing::BeyondCaps(header) => self.beyond_caps(bytes, &header, seed),
            Standing::Inside(geometry, lengths) => {
                self.both(bytes, &geometry, &lengths, Asked::Same(&said), seed)
            }
            Standing::AboveTheirCap(geometry, lengths) => {
                self.tally.outside("a length above the Rust's cap, not above 18");
                self.both(bytes, &geometry, &lengths, Asked::Nothing, seed)
            }
            Standing::DescriptorShort => {
                self.tally.outside("a descriptor that ends too early");
                Ok(())
            }
            Standing::HostAloneRefuses => {
                Err(format!("the host refuses a descriptor; the Rust says {said:.200?}"))
            }
        }
    }

    /// A header that the host does not take: the Rust must not take it either.
    fn no_header(&mut self, said: &Said, fault: HeaderFault) -> Result<(), String> {
        self.tally.outside("no header");
        match said {
            Said::Header => Ok(()),
            other => {
                Err(format!("no header for the host ({fault:?}); the Rust says {other:.200?}"))
            }
        }
    }

    /// Sizes outside the caps: ours answers 1 whatever the Rust says, and leaves memory as found.
    fn beyond_caps(&mut self, bytes: &[u8], header: &Header, seed: u64) -> Result<(), String> {
        self.tally.outside("sizes outside 1 to 16,384");
        let numbers = header.geometry.numbers();
        let entry = entry_of(numbers.depth);
        let lent = Lent { entry, frame: bytes, lengths: &[], samples: 3, words: 3, numbers };
        self.expect(&lent, seed, Answer::refused(1))
    }

    /// Gives a frame with its lengths to our side and judges it by the Rust's answer.
    fn both(
        &mut self,
        bytes: &[u8],
        geometry: &Geometry,
        lengths: &[u8],
        asked: Asked,
        seed: u64,
    ) -> Result<(), String> {
        let mut rng = Rng::of(seed, 7);
        let need = model::needs(lengths, geometry.depth);
        let words = need.unwrap_or(rng.below(6)) + rng.pick(&[0, 0, 0, 1, 5]);
        let lent = Lent {
            entry: entry_of(geometry.depth),
            frame: bytes,
            lengths,
            samples: geometry.samples(),
            words,
            numbers: geometry.numbers(),
        };
        let answer = match asked {
            Asked::Same(said) => {
                let answer = self.judged(&lent, said, seed)?;
                self.tally.domain[answer.number() as usize] += 1;
                self.count_accepted(&lent, geometry, answer);
                answer
            }
            Asked::Nothing => self.by_document(&lent, seed)?,
        };
        self.tally.never.frame(&lent, self.leave_out)?;
        self.lent_otherwise(&lent, answer, need, &mut rng)
    }

    /// Inside the domain: the answer must be the Rust's.
    fn judged(&mut self, lent: &Lent, said: &Said, seed: u64) -> Result<Answer, String> {
        let runs = self.twice(lent, seed)?;
        agree(&runs.one.answer, said, lent.frame)?;
        let picture = match said {
            Said::Planes(picture) => Some(picture.as_slice()),
            _ => None,
        };
        runs.left(picture)?;
        Ok(runs.one.answer)
    }

    /// Outside the domain: the answer must be the model's.
    pub(crate) fn by_document(&mut self, lent: &Lent, seed: u64) -> Result<Answer, String> {
        let runs = self.twice(lent, seed)?;
        let picture = model::picture(
            lent.entry,
            lent.frame,
            lent.lengths,
            lent.samples,
            lent.words,
            &lent.numbers,
        );
        let wanted: Answer = match &picture {
            Ok(_) => Answer::Planes,
            Err(refusal) => (*refusal).into(),
        };
        runs.answered(wanted)?;
        runs.left(picture.as_deref().ok())?;
        Ok(wanted)
    }

    /// Runs and demands one picture.
    pub(crate) fn pictured(
        &mut self,
        lent: &Lent,
        seed: u64,
        picture: &[u16],
    ) -> Result<(), String> {
        let runs = self.twice(lent, seed)?;
        runs.answered(Answer::Planes)?;
        runs.left(Some(picture))
    }

    /// Runs and demands one refusal.
    fn expect(&mut self, lent: &Lent, seed: u64, wanted: Answer) -> Result<(), String> {
        let runs = self.twice(lent, seed)?;
        runs.answered(wanted)?;
        runs.left(None)
    }

    /// Runs on noise and on its complement; both must answer the same. Where ours is the archive the
    /// model runs too.
    fn twice(&mut self, lent: &Lent, seed: u64) -> Result<Runs, String> {
        self.tally.calls += 2;
        let one = self.ours.decode(lent, seed, false);
        let other = self.ours.decode(lent, seed, true);
        if one.answer != other.answer {
            return Err(format!("{} on some noise, {} on other", one.answer, other.answer));
        }
        let model = match magicyuv_host::backing() {
            Backing::Archive => Some(Ours::model().decode(lent, seed, false)),
            Backing::Model => None,
        };
        Ok(Runs { one, other, model })
    }

    /// Lends something else with the same frame: a size one short or one over, a workspace one short,
    /// a geometry outside the rules, the wrong entry. What must be answered follows from the answer
    /// to the frame itself and the order of the table.
    fn lent_otherwise(
        &mut self,
        lent: &Lent,
        answer: Answer,
        need: Option<usize>,
        rng: &mut Rng,
    ) -> Result<(), String> {
        let first = |number: u32| {
            if (1..number).contains(&answer.number()) {
                answer
            } else {
                Answer::refused(number)
            }
        };
        let (mut bent, mut lengths) = (lent.clone(), lent.lengths.to_vec());
        let wanted = match rng.below(8) {
            0 => {
                bent.samples -= usize::from(bent.samples > 0);
                first(4)
            }
            1 => {
                bent.samples += 1;
                first(4)
            }
            2 => {
                lengths.pop();
                first(4)
            }
            3 => {
                lengths.push(0);
                first(4)
            }
            4 => {
                bent.words = need.map_or(0, |n| n - 1);
                first(11)
            }
            5 => {
                bent.words = 0;
                first(11)
            }
            6 => {
                bent.entry = other_entry(bent.entry);
                Answer::refused(1)
            }
            _ => {
                outside_rules(rng, &mut bent.numbers);
                Answer::refused(1)
            }
        };
        bent.lengths = &lengths;
        self.tally.lent[wanted.number() as usize] += 1;
        self.expect(&bent, rng.next(), wanted).map_err(|e| format!("lent otherwise: {e}"))
    }

    /// Counts what accepted frames were made of.
    fn count_accepted(&mut self, lent: &Lent, geometry: &Geometry, answer: Answer) {
        if answer != Answer::Planes {
            return;
        }
        let name = format!(
            "{:?} {}x{} depth {}",
            geometry.family, geometry.sx, geometry.sy, geometry.depth
        );
        *self.tally.accepted.entry(name).or_default() += 1;
        for name in made_of(lent, geometry) {
            *self.tally.made_of.entry(name).or_default() += 1;
        }
    }
}

/// Two runs with the same answer, and the model's on the memory of the first.
struct Runs {
    one: Outcome,
    other: Outcome,
    model: Option<Outcome>,
}

impl Runs {
    fn answered(&self, wanted: Answer) -> Result<(), String> {
        if self.one.answer == wanted {
            Ok(())
        } else {
            Err(format!("ours {}, and should be {wanted}", self.one.answer))
        }
    }

    /// What is left: by document 01 and the picture first, so that a report names them, then by the model.
    fn left(&self, picture: Option<&[u16]>) -> Result<(), String> {
        left::frame(&self.one, picture)?;
        left::frame(&self.other, picture)?;
        self.model.as_ref().map_or(Ok(()), |model| left::as_the_model(&self.one, model))
    }
}

/// Whether our answer is the Rust's: its row, its place where it gives one, and for 15 its byte.
fn agree(ours: &Answer, said: &Said, frame: &[u8]) -> Result<(), String> {
    let differ = || Err(format!("ours {ours}, the Rust says {said:.200?}"));
    match (ours, said) {
        (Answer::Planes, Said::Planes(_)) => Ok(()),
        (
            Answer::Refused { number, place },
            Said::Row { number: row, place: theirs, predictor },
        ) => {
            let same_place = theirs.map_or(true, |p| p == *place);
            let same_byte = predictor.map_or(true, |b| predictor_byte(frame, *place) == Some(b));
            if number == row && same_place && same_byte {
                Ok(())
            } else {
                differ()
            }
        }
        _ => differ(),
    }
}

/// The predictor byte of a slice.
fn predictor_byte(frame: &[u8], place: Place) -> Option<u8> {
    let Place::Slice(slice) = place else { return None };
    let at = 36 + 4 * slice as usize;
    let entry = frame.get(at..at + 4)?;
    let start = u32::from_le_bytes([entry[0], entry[1], entry[2], entry[3]]) as usize;
    frame.get(32 + start + 1).copied()
}

fn other_entry(entry: Entry) -> Entry {
    match entry {
        Entry::Eight => Entry::Sixteen,
        Entry::Sixteen => Entry::Eight,
    }
}

/// Puts one number outside document 01's rules.
pub fn outside_rules(rng: &mut Rng, numbers: &mut Numbers) {
    let size = rng.pick(&[0, 16_385, 32_768, u32::MAX]);
    let factor = rng.pick(&[0, 3, 4, u32::MAX]);
    match rng.below(8) {
        0 => numbers.width = size,
        1 => numbers.height = size,
        2 => numbers.slice_height = size,
        3 => numbers.family = rng.pick(&[5, 6, u32::MAX]),
        4 => numbers.sx = factor,
        5 => numbers.sy = factor,
        6 => numbers.depth = rng.pick(&[0, 1, 7, 9, 11, 13, 15, 16, 32, u32::MAX]),
        _ => numbers.interlaced = rng.pick(&[2, 3, u32::MAX]),
    }
}
