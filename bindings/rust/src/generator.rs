//! The table generator: makes the parse table of a grammar card, or refuses the card.
//!
//! It is the archive `libgenerator_c.a`. `bindings/c/sidumza_generator.h` describes card and areas. A call needs up to
//! 640 KiB of stack; a thread of Rust has 2 MiB where nothing else is said. With the feature `merge` or `sample` alone
//! there are the refusals and the constants, and no calls.

use std::fmt;

/// A card has at most so many numbers.
pub const CARD: usize = 772;

/// The least lengths of the three areas.
pub const TABLE: usize = 32_260;
pub const WORDS: usize = 8_192;
pub const HALVES: usize = 16_384;

/// Why there is no table.
#[derive(Clone, Copy, Debug, PartialEq, Eq)]
pub enum Refusal {
    /// 1: the table area is too short.
    TableAreaShort,
    /// 2: the first work area is too short.
    WordsShort,
    /// 3: the second work area is too short.
    HalvesShort,
    /// 4: the card has under 4 numbers.
    CardShort,
    /// 5: a size outside its limits.
    CardSizes,
    /// 6: the card has not 4 + 2P + L numbers.
    CardLength,
    /// 7: a left side that is no nonterminal.
    LeftSide,
    /// 8: lengths that do not add up to L.
    Lengths,
    /// 9: a symbol of a right side that is 0 or at least T + N.
    Symbol,
    /// 10: the lowest nonterminal that is not reached from the start or derives no string of terminals.
    Useless { nonterminal: u16 },
    /// 11: more than 256 states.
    States,
    /// 12: more than 2,048 transitions on nonterminals.
    Transitions,
    /// 13: the first cell where two actions meet, and the two lowest of their values.
    Conflict { state: u16, terminal: u16, lower: u16, higher: u16 },
}

impl Refusal {
    /// The number of the refusal, 1 to 13.
    pub fn number(self) -> u32 {
        match self {
            Refusal::TableAreaShort => 1,
            Refusal::WordsShort => 2,
            Refusal::HalvesShort => 3,
            Refusal::CardShort => 4,
            Refusal::CardSizes => 5,
            Refusal::CardLength => 6,
            Refusal::LeftSide => 7,
            Refusal::Lengths => 8,
            Refusal::Symbol => 9,
            Refusal::Useless { .. } => 10,
            Refusal::States => 11,
            Refusal::Transitions => 12,
            Refusal::Conflict { .. } => 13,
        }
    }

    /// The refusals of a card by its content, 4 to 10, from the number; 10 has the nonterminal.
    pub(crate) fn of_card(number: u64, nonterminal: u64) -> Refusal {
        match number {
            4 => Refusal::CardShort,
            5 => Refusal::CardSizes,
            6 => Refusal::CardLength,
            7 => Refusal::LeftSide,
            8 => Refusal::Lengths,
            9 => Refusal::Symbol,
            10 => Refusal::Useless { nonterminal: nonterminal as u16 },
            n => crate::unknown(n),
        }
    }
}

impl fmt::Display for Refusal {
    fn fmt(&self, f: &mut fmt::Formatter) -> fmt::Result {
        write!(f, "refused {}: ", self.number())?;
        match self {
            Refusal::TableAreaShort => write!(f, "table area under {TABLE} numbers"),
            Refusal::WordsShort => write!(f, "first work area under {WORDS} numbers"),
            Refusal::HalvesShort => write!(f, "second work area under {HALVES} numbers"),
            Refusal::CardShort => write!(f, "card under 4 numbers"),
            Refusal::CardSizes => write!(f, "a size outside its limits"),
            Refusal::CardLength => write!(f, "not 4 + 2P + L numbers"),
            Refusal::LeftSide => write!(f, "a left side that is no nonterminal"),
            Refusal::Lengths => write!(f, "lengths that do not add up to L"),
            Refusal::Symbol => write!(f, "a symbol that is 0 or at least T + N"),
            Refusal::Useless { nonterminal } => {
                write!(f, "nonterminal {nonterminal} is not reached or derives no string of terminals")
            }
            Refusal::States => write!(f, "more than 256 states"),
            Refusal::Transitions => write!(f, "more than 2048 transitions on nonterminals"),
            Refusal::Conflict { state, terminal, lower, higher } => {
                write!(f, "in state {state}, terminal {terminal}, {lower} and {higher} meet")
            }
        }
    }
}

impl std::error::Error for Refusal {}

#[cfg(feature = "generator")]
mod archive {
    extern "C" {
        pub fn sidumza_generate(
            card: *const u16,
            card_len: usize,
            table: *mut u16,
            table_len: usize,
            words: *mut u64,
            words_len: usize,
            halves: *mut u32,
            halves_len: usize,
            out: *mut u64,
        );
    }
}

/// Makes the table of `card` in `table` and gives its length; zeros follow it over the first [`TABLE`] places.
///
/// `words` and `halves` are work areas of at least [`WORDS`] and [`HALVES`] places. Refusals 1 to 10 change no area;
/// after all others, and after a table, both work areas are zero over these lengths.
#[cfg(feature = "generator")]
pub fn generate(card: &[u16], table: &mut [u16], words: &mut [u64], halves: &mut [u32]) -> Result<usize, Refusal> {
    let mut out = [0u64; 5];
    // SAFETY: each pointer comes with the length of its slice, `out` has the five places that are
    // written, and the borrows make the exclusive slices disjoint from all others.
    unsafe {
        archive::sidumza_generate(
            card.as_ptr(),
            card.len(),
            table.as_mut_ptr(),
            table.len(),
            words.as_mut_ptr(),
            words.len(),
            halves.as_mut_ptr(),
            halves.len(),
            out.as_mut_ptr(),
        );
    }
    let value = |place: usize| out[place] as u16;
    Err(match out[0] {
        0 => {
            let [q, t, n, p] = [0, 1, 2, 3].map(|place| usize::from(table[place]));
            return Ok(4 + 2 * p + q + q * (t + n));
        }
        1 => Refusal::TableAreaShort,
        2 => Refusal::WordsShort,
        3 => Refusal::HalvesShort,
        11 => Refusal::States,
        12 => Refusal::Transitions,
        13 => Refusal::Conflict { state: value(1), terminal: value(2), lower: value(3), higher: value(4) },
        n => Refusal::of_card(n, out[1]),
    })
}

/// The table of a card, with areas of its own.
#[cfg(feature = "generator")]
pub fn table_of(card: &[u16]) -> Result<Vec<u16>, Refusal> {
    let mut table = vec![0; TABLE];
    let length = generate(card, &mut table, &mut vec![0; WORDS], &mut vec![0; HALVES])?;
    table.truncate(length);
    Ok(table)
}
