//! Two grammar cards in one: merges them into a card whose sentences are those of either, or refuses.
//!
//! It is the archive `libmerge_c.a`. `bindings/c/sidumza_merge.h` describes the merged card, and says what to do about a
//! refusal and where a table cannot be made of it. The refusals 4 to 10 are those of [`generator`], whose archive is not
//! needed.

use crate::generator;
use std::fmt;

pub use crate::generator::CARD;

/// Which card a refusal by 4 to 10 means.
#[derive(Clone, Copy, Debug, PartialEq, Eq)]
pub enum Which {
    First,
    Second,
    /// With 5 alone: N above 60, P above 128 or L above 512.
    Merged,
}

/// Why there is no merged card.
#[derive(Clone, Copy, Debug, PartialEq, Eq)]
pub enum Refusal {
    /// 4 to 10: what is wrong with one of the cards. The nonterminal of 10 is in that card's own numbering.
    Card { which: Which, refusal: generator::Refusal },
    /// 53: the cards differ in T.
    TerminalsDiffer,
    /// 54: the area is shorter than the merged card.
    MergedAreaShort,
}

impl Refusal {
    /// The number of the refusal, 4 to 10, 53 or 54.
    pub fn number(self) -> u32 {
        match self {
            Refusal::Card { refusal, .. } => refusal.number(),
            Refusal::TerminalsDiffer => 53,
            Refusal::MergedAreaShort => 54,
        }
    }
}

impl fmt::Display for Refusal {
    fn fmt(&self, f: &mut fmt::Formatter) -> fmt::Result {
        match self {
            Refusal::Card { which, refusal } => {
                let card = match which {
                    Which::First => "first card",
                    Which::Second => "second card",
                    Which::Merged => "merged card",
                };
                write!(f, "{card}: {refusal}")
            }
            Refusal::TerminalsDiffer => write!(f, "refused 53: the cards differ in T"),
            Refusal::MergedAreaShort => write!(f, "refused 54: area shorter than the merged card"),
        }
    }
}

impl std::error::Error for Refusal {}

mod archive {
    extern "C" {
        pub fn sidumza_merge(
            first: *const u16,
            first_len: usize,
            second: *const u16,
            second_len: usize,
            merged: *mut u16,
            merged_len: usize,
            out: *mut u64,
        );
    }
}

/// Merges the cards `first` and `second` into `merged` and gives the length of the merged card,
/// `first.len() + second.len() + 2`; with [`CARD`] places `merged` is always long enough.
///
/// Places of `merged` behind the card never change, and a refusal changes none.
pub fn merge(first: &[u16], second: &[u16], merged: &mut [u16]) -> Result<usize, Refusal> {
    let mut out = [0u64; 3];
    // SAFETY: each pointer comes with the length of its slice, `out` has the three places that are
    // written, and the borrow makes the exclusive slice disjoint from all others; the two cards may overlap.
    unsafe {
        archive::sidumza_merge(
            first.as_ptr(),
            first.len(),
            second.as_ptr(),
            second.len(),
            merged.as_mut_ptr(),
            merged.len(),
            out.as_mut_ptr(),
        );
    }
    let which = match out {
        [0, _, length] => return Ok(length as usize),
        [53, ..] => return Err(Refusal::TerminalsDiffer),
        [54, ..] => return Err(Refusal::MergedAreaShort),
        [_, 1, _] => Which::First,
        [_, 2, _] => Which::Second,
        [5, 3, _] => Which::Merged,
        [n, ..] => crate::unknown(n),
    };
    Err(Refusal::Card { which, refusal: generator::Refusal::of_card(out[0], out[2]) })
}

/// The merged card of two, with an area of its own.
pub fn merged_of(first: &[u16], second: &[u16]) -> Result<Vec<u16>, Refusal> {
    let mut merged = vec![0; CARD];
    let length = merge(first, second, &mut merged)?;
    merged.truncate(length);
    Ok(merged)
}
