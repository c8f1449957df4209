//! What is printed: a table for a reader, or lines of fields with tabs between them, which
//! tools/speed.py reads. A line's first field says what it is.

use crate::lent::Input;
use crate::measure::Pair;
use crate::sides::{Figure, NAMES};

/// What was measured of one frame, in seconds.
pub struct Row {
    /// What the row is among: the line's first field.
    pub keyword: &'static str,
    /// The frame.
    pub name: String,
    /// Where it stands on its axis.
    pub at: usize,
    /// Samples of the frame.
    pub samples: usize,
    /// Bits of the frame over its samples.
    pub bits: f64,
    /// How often each side was run.
    pub runs: usize,
    /// Ours, plain, Rust.
    pub figures: [Figure; 3],
}

impl Row {
    /// The row of an input.
    pub fn new(keyword: &'static str, name: String, at: usize, input: &Input) -> Row {
        let (samples, bits) = (input.geometry.samples(), input.bits());
        let nothing = Figure { whole: Pair::default(), clear: Pair::default() };
        Row { keyword, name, at, samples, bits, runs: 0, figures: [nothing; 3] }
    }

    /// The frame and its place on the axis, in words.
    fn label(&self) -> String {
        let Row { name, at, .. } = self;
        match self.keyword {
            "size" => format!("{name}, {at} columns"),
            "slices" | "most" => format!("{name}, {at} slices"),
            "words" => format!("{name}, {at} bits"),
            "refusal" if *at > 0 => format!("{name}, refused by {at}"),
            _ => name.clone(),
        }
    }

    /// Seconds as nanoseconds a sample.
    fn each(&self, seconds: Pair) -> Pair {
        seconds.times(1e9 / self.samples as f64)
    }

    /// One line a side: keyword, name, place on the axis, side, samples, bits a sample, runs; then
    /// nanoseconds a sample, least and median, of all of it and of the clearing alone.
    pub fn lines(&self) {
        for (side, figure) in NAMES.iter().zip(&self.figures) {
            let (whole, clear) = (self.each(figure.whole), self.each(figure.clear));
            println!(
                "{}\t{}\t{}\t{side}\t{}\t{:.2}\t{}\t{:.3}\t{:.3}\t{:.3}\t{:.3}",
                self.keyword,
                self.name,
                self.at,
                self.samples,
                self.bits,
                self.runs,
                whole.least,
                whole.median,
                clear.least,
                clear.median,
            );
        }
    }
}

/// Ours, plain, Rust, and ours over each of the others.
fn with_ratios([ours, plain, rust]: [f64; 3]) {
    print!("{ours:>9.2}{plain:>8.2}{rust:>8.2}{:>7.2}{:>7.2}", ours / plain, ours / rust);
}

/// Least and median of every row, by what a figure gives.
fn block(title: &str, rows: &[Row], value: impl Fn(&Figure) -> Pair) {
    println!("\n{title}");
    println!("{:<61}{:>39}{:>39}", "", "least of all runs", "median of all runs");
    print!("{:<50}{:>6}{:>5}", "frame", "bits", "runs");
    (0..2).for_each(|_| {
        print!("{:>9}{:>8}{:>8}{:>7}{:>7}", "ours", "plain", "Rust", "/plain", "/Rust")
    });
    println!();
    for row in rows {
        print!("{:<50}{:>6.2}{:>5}", row.label(), row.bits, row.runs);
        let pairs = row.figures.map(|figure| row.each(value(&figure)));
        with_ratios(pairs.map(|pair| pair.least));
        with_ratios(pairs.map(|pair| pair.median));
        println!();
    }
}

/// The three blocks of a reader's table.
pub fn table(rows: &[Row]) {
    block("nanoseconds a sample, clearing in the figure", rows, |f| f.whole);
    block("nanoseconds a sample, without clearing", rows, |f| f.whole.less(f.clear));
    println!("\nmillion samples a second, by the least, clearing in the figure");
    println!("{:<50}{:>9}{:>9}{:>9}", "frame", NAMES[0], NAMES[1], NAMES[2]);
    for row in rows {
        print!("{:<50}", row.label());
        row.figures.iter().for_each(|f| print!("{:>9.1}", 1e3 / row.each(f.whole).least));
        println!();
    }
}
