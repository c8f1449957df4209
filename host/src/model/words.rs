//! Words, shares, needs and the lookup of document 01 ("Words and lookup"); refusals 9 and 10.

use super::bits::bit;

/// Why a plane's lengths give no code.
#[derive(Clone, Copy, Debug, PartialEq, Eq)]
pub enum Misfit {
    /// A length above 18.
    TooLong,
    /// The shares exceed one.
    TooMany,
}

impl Misfit {
    /// The refusal's number.
    pub fn number(self) -> u32 {
        match self {
            Misfit::TooLong => 9,
            Misfit::TooMany => 10,
        }
    }
}

/// The words of one length: `first`, `first + 1`, .. for the symbols in ascending order.
#[derive(Clone, Debug, Default, PartialEq, Eq)]
struct Tier {
    first: u32,
    symbols: Vec<u16>,
}

/// The words of one plane.
#[derive(Clone, Debug, PartialEq, Eq)]
pub struct Code {
    /// tiers[l] has the words of length l, for l from 1 to m.
    tiers: Vec<Tier>,
}

impl Code {
    /// The code of some lengths: 9 for a length above 18, then 10 for shares above one.
    pub fn of(lengths: &[u8]) -> Result<Code, Misfit> {
        if lengths.iter().any(|l| *l > 18) {
            return Err(Misfit::TooLong);
        }
        let share = |l: &u8| if *l == 0 { 0 } else { 1u64 << (18 - *l) };
        if lengths.iter().map(share).sum::<u64>() > 262_144 {
            return Err(Misfit::TooMany);
        }
        let longest = lengths.iter().copied().max().unwrap_or(0) as usize;
        let mut tiers = vec![Tier::default(); longest + 1];
        for (symbol, length) in lengths.iter().enumerate().filter(|(_, l)| **l > 0) {
            tiers[*length as usize].symbols.push(symbol as u16);
        }
        number_words(&mut tiers);
        Ok(Code { tiers })
    }

    /// m, the longest length; 0 when there is no word.
    pub fn longest(&self) -> u32 {
        self.tiers.len() as u32 - 1
    }

    /// The shortest word's length; `None` when there is no word.
    pub fn shortest(&self) -> Option<u32> {
        (1..self.tiers.len()).find(|l| !self.tiers[*l].symbols.is_empty()).map(|l| l as u32)
    }

    /// Every word as (length, word, symbol), shortest first.
    pub fn words(&self) -> impl Iterator<Item = (u32, u32, u16)> + '_ {
        self.tiers.iter().enumerate().flat_map(|(l, tier)| {
            let number = move |(i, s): (usize, &u16)| (l as u32, tier.first + i as u32, *s);
            tier.symbols.iter().enumerate().map(number)
        })
    }

    /// S, the number of different first twelve bits among the words longer than 12.
    pub fn heads(&self) -> usize {
        let mut seen = vec![false; 4_096];
        for (length, word, _) in self.words().filter(|(l, _, _)| *l > 12) {
            seen[(word >> (length - 12)) as usize] = true;
        }
        seen.iter().filter(|s| **s).count()
    }

    /// 1 word for m = 0; 2^m for m up to 12; else 4,096 + S·2^(m-12).
    pub fn need(&self) -> usize {
        match self.longest() {
            m if m <= 12 => 1 << m,
            m => 4_096 + (self.heads() << (m - 12)),
        }
    }

    /// The word that the bits at a position begin with, as its length and symbol.
    pub fn word_at(&self, payload: &[u8], position: usize) -> Option<(u32, u16)> {
        let mut value = 0;
        for length in 1..=self.longest() {
            value = 2 * value + bit(payload, position + length as usize - 1);
            if let Some(symbol) = self.symbol_of(length, value) {
                return Some((length, symbol));
            }
        }
        None
    }

    /// The word that the first bits of a window of `count` bits are.
    pub fn word_in(&self, window: u32, count: u32) -> Option<(u32, u16)> {
        let first = |l: u32| window >> (count - l);
        (1..=self.longest().min(count)).find_map(|l| Some((l, self.symbol_of(l, first(l))?)))
    }

    /// The symbol whose word is `value` of that length.
    fn symbol_of(&self, length: u32, value: u32) -> Option<u16> {
        let tier = &self.tiers[length as usize];
        tier.symbols.get(value.checked_sub(tier.first)? as usize).copied()
    }
}

/// Longest first: the longest length starts at 0; with u the end of the words and room used at one
/// length, the length one bit shorter starts at u/2 rounded up.
fn number_words(tiers: &mut [Tier]) {
    let mut first = 0u32;
    for tier in tiers.iter_mut().rev() {
        tier.first = first;
        first = (first + tier.symbols.len() as u32).div_ceil(2);
    }
}
