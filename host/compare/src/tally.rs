//! Counts of a run: by refusal number inside document 01's domain, by reason outside of it, and by
//! what the frames were made of.

use crate::never::Never;
use std::collections::BTreeMap;

/// The counts.
#[derive(Clone, Debug, Default)]
pub struct Tally {
    /// Frames given to both sides.
    pub frames: u64,
    /// Calls of our frame entries.
    pub calls: u64,
    /// Frames inside the domain, by answer: 0 for planes, else the refusal's number.
    pub domain: [u64; 16],
    /// Calls with something else lent (sizes, geometry, workspace), by answer.
    pub lent: [u64; 16],
    /// Frames outside the domain, by reason.
    pub outside: BTreeMap<&'static str, u64>,
    /// Frames of geometries that the Rust cannot express, by answer.
    pub split: [u64; 16],
    /// Accepted frames by family, factors and depth.
    pub accepted: BTreeMap<String, u64>,
    /// Accepted frames by what was in them.
    pub made_of: BTreeMap<String, u64>,
    /// Slices for which one of two checks would fire.
    pub never: Never,
    /// Tables by themselves, by answer.
    pub tables: [u64; 16],
    /// Readings by themselves, by answer.
    pub readings: [u64; 16],
    /// Readings and tables outside the domain, by reason.
    pub alone_outside: BTreeMap<&'static str, u64>,
}

fn row(title: &str, counts: &[u64; 16]) -> String {
    let mut out = format!("{title}\n");
    for (number, count) in counts.iter().enumerate().filter(|(_, c)| **c > 0) {
        let name = if number == 0 { "accepted".into() } else { format!("refusal {number}") };
        out.push_str(&format!("  {name:<12}{count:>10}\n"));
    }
    out
}

fn map<K: std::fmt::Display>(title: &str, counts: &BTreeMap<K, u64>) -> String {
    let mut out = format!("{title}\n");
    for (name, count) in counts {
        out.push_str(&format!("  {name:<44}{count:>10}\n"));
    }
    out
}

impl Tally {
    /// Counts one frame outside the domain.
    pub fn outside(&mut self, reason: &'static str) {
        *self.outside.entry(reason).or_default() += 1;
    }

    /// The whole report.
    pub fn report(&self) -> String {
        [
            format!("frames {}, calls of our entries {}\n", self.frames, self.calls),
            row("inside the domain, by answer:", &self.domain),
            map("outside the domain:", &self.outside),
            row("other things lent, by answer:", &self.lent),
            row("geometries that the Rust cannot express, plane by plane, by answer:", &self.split),
            map("accepted frames:", &self.accepted),
            map("accepted frames with:", &self.made_of),
            self.never.report(),
            row("tables by themselves:", &self.tables),
            row("readings by themselves:", &self.readings),
            map("by themselves, outside the domain:", &self.alone_outside),
        ]
        .concat()
    }
}
