//! The comparison's smaller run (about a minute with everything in it), and each spoiling and each
//! left-out check seen red.

use compare::never::{Check, Never};
use compare::our_side::{Spoil, SpoilKind};
use compare::run::{run, Plan};
use compare::tally::Tally;
use magicyuv_host::formats::{Format, FORMATS};
use magicyuv_host::Family;
use oracle::tables::{self, Family as Theirs};

const PLAN: Plan = Plan {
    seed: 11,
    frames: 0,
    split: 0,
    alone: 0,
    small: false,
    largest: false,
    spoil: None,
    leave_out: None,
};

#[test]
fn random_frames_agree_and_reach_every_row() {
    let (comparison, found) = run(&Plan { frames: 20_000, split: 1_000, ..PLAN });
    assert_eq!(found.count, 0, "{}", found.report());
    let tally = comparison.tally;
    for number in [0, 2, 3, 5, 6, 7, 8, 9, 10, 12, 13, 14, 15] {
        assert!(tally.domain[number] > 0, "number {number} was not reached");
    }
    for number in [1, 4, 11] {
        assert!(tally.lent[number] > 0, "number {number} was not reached");
    }
    assert_eq!(tally.accepted.len(), FORMATS.len());
    for check in [Check::Two, Check::Eight, Check::Bounds, Check::Size] {
        assert!(
            would_fire(&tally.never, check) > 0,
            "{check:?} refuses nothing for which one fires"
        );
    }
    counted_by_the_answers(&tally);
}

/// Slices for which one of the two checks that never fire would, of those that this check alone refuses.
fn would_fire(never: &Never, check: Check) -> u64 {
    match check {
        Check::Two | Check::Eight => never.begun(Some(check)).below,
        Check::Three => never.begun(Some(check)).rowless,
        Check::Bounds | Check::Size => never.raw(Some(check)).short,
    }
}

/// The frames that count as passed are those whose answers say so.
fn counted_by_the_answers(tally: &Tally) {
    let above_cap = tally.outside["a length above the Rust's cap, not above 18"];
    let by_answer = |number: usize| tally.domain[number] + tally.split[number];
    let past_8 = by_answer(0) + (9..16).map(by_answer).sum::<u64>() + above_cap;
    assert_eq!(tally.never.begun(None).frames, past_8);
    let least = by_answer(0) + by_answer(15);
    assert!((least..=least + by_answer(14) + above_cap).contains(&tally.never.checked()));
    assert!(tally.never.raw(None).slices > 0);
}

#[test]
fn tables_and_readings_agree() {
    let (comparison, found) = run(&Plan { alone: 5_000, ..PLAN });
    assert_eq!(found.count, 0, "{}", found.report());
    for number in [0, 4, 9, 10, 11] {
        assert!(comparison.tally.tables[number] > 0, "table {number} was not reached");
        assert!(comparison.tally.readings[number] > 0, "reading {number} was not reached");
    }
    assert!(comparison.tally.readings[14] > 0);
}

#[test]
fn the_small_end_agrees() {
    let (_, found) = run(&Plan { small: true, ..PLAN });
    assert_eq!(found.count, 0, "{}", found.report());
}

#[test]
fn every_spoiling_is_reported() {
    for kind in [SpoilKind::Sample, SpoilKind::Place, SpoilKind::Word, SpoilKind::Left] {
        let spoil = Some(Spoil { kind, at: 40 });
        let (_, found) = run(&Plan { frames: 1_000, spoil, ..PLAN });
        assert_eq!(found.count, 1, "{kind:?}");
        let (_, found) = run(&Plan { alone: 1_000, spoil, ..PLAN });
        assert_eq!(found.count, 1, "{kind:?} by itself");
    }
}

#[test]
fn every_left_out_check_is_reported() {
    let plan = Plan { seed: 2, frames: 1_000, ..PLAN };
    let (comparison, found) = run(&plan);
    assert_eq!(found.count, 0, "{}", found.report());
    for check in Check::ALL {
        assert!(would_fire(&comparison.tally.never, check) > 0, "{check:?} refuses nothing");
        let (bent, found) = run(&Plan { leave_out: Some(check), ..plan });
        assert!(found.report().contains(&format!("({} left out): ", check.word())), "{check:?}");
        assert_eq!(bent.tally.never.nothing_left_out(Some(check)), None);
    }
    let (nothing, found) = run(&Plan { leave_out: Some(Check::Two), ..PLAN });
    assert_eq!((nothing.tally.never.nothing_left_out(Some(Check::Two)), found.count), (Some(0), 0));
}

fn family(theirs: Theirs) -> Family {
    match theirs {
        Theirs::Gray => Family::Gray,
        Theirs::Rgb => Family::Rgb,
        Theirs::Yuv => Family::Yuv,
        Theirs::Rgba => Family::Rgba,
        Theirs::Yuva => Family::Yuva,
    }
}

#[test]
fn the_host_and_the_stand_in_have_the_same_formats() {
    let rows = tables::fourcc_table();
    assert_eq!(rows.len(), FORMATS.len());
    for byte in 0..=255 {
        let theirs = tables::lookup(byte).map(|r| {
            assert_eq!(r.planes as usize, family(r.family).planes());
            assert_eq!(u32::from(r.aux_byte), u32::from(r.bit_depth) + 4);
            Format {
                byte,
                family: family(r.family),
                sx: r.sub_x.into(),
                sy: r.sub_y.into(),
                depth: r.bit_depth.into(),
            }
        });
        assert_eq!(magicyuv_host::formats::lookup(byte), theirs);
    }
}
