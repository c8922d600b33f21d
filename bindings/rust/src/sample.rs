//! A sample for a production: finds a shortest sentence of a grammar card that uses the production, or refuses.
//!
//! It is the archive `libsample_c.a`, which cannot be made yet. `bindings/c/sidumza_sample.h` says what holds of a sample, and what to do about a
//! refusal. The refusals 4 to 10 are those of [`generator`], whose archive is not needed.

use crate::generator;
use std::fmt;

/// The least length of the area, in bytes; no sample is longer.
pub const SAMPLE: usize = 255;

/// Why there is no sample.
#[derive(Clone, Copy, Debug, PartialEq, Eq)]
pub enum Refusal {
    /// 47: the area has under 255 bytes. It is tested before everything else.
    SampleAreaShort,
    /// 4 to 10: what is wrong with the card.
    Card { refusal: generator::Refusal },
    /// 48: the card has no such production.
    NoProduction,
    /// 49: every sentence with a derivation that uses the production is longer than 255.
    SampleLong,
}

impl Refusal {
    /// The number of the refusal, 4 to 10 or 47 to 49.
    pub fn number(self) -> u32 {
        match self {
            Refusal::Card { refusal } => refusal.number(),
            Refusal::SampleAreaShort => 47,
            Refusal::NoProduction => 48,
            Refusal::SampleLong => 49,
        }
    }
}

impl fmt::Display for Refusal {
    fn fmt(&self, f: &mut fmt::Formatter) -> fmt::Result {
        match self {
            Refusal::Card { refusal } => write!(f, "{refusal}"),
            Refusal::SampleAreaShort => write!(f, "refused 47: area under {SAMPLE} bytes"),
            Refusal::NoProduction => write!(f, "refused 48: no such production"),
            Refusal::SampleLong => {
                write!(f, "refused 49: no sentence of up to {SAMPLE} terminals uses the production")
            }
        }
    }
}

impl std::error::Error for Refusal {}

mod archive {
    extern "C" {
        pub fn sidumza_sample(
            card: *const u16,
            card_len: usize,
            production: u64,
            area: *mut u8,
            area_len: usize,
            out: *mut u64,
        );
    }
}

/// Finds a sample for a production of `card`, counted from 0, and gives its length: so many bytes of `area`, one for each
/// terminal, are the sample, and zeros follow it over the first [`SAMPLE`].
///
/// The sample is a sentence that has a derivation that uses the production, and no sentence that has one is shorter. Where
/// several are equally short any of them may come. Of a card of which no table is made, with 11, 12 or 13, there are
/// samples, too.
///
/// Bytes of `area` behind the first [`SAMPLE`] never change, and a refusal changes none.
pub fn sample(card: &[u16], production: u64, area: &mut [u8]) -> Result<usize, Refusal> {
    let mut out = [0u64; 2];
    // SAFETY: each pointer comes with the length of its slice, `out` has the two places that are
    // written, and the borrow makes the exclusive slice disjoint from all others.
    unsafe {
        archive::sidumza_sample(card.as_ptr(), card.len(), production, area.as_mut_ptr(), area.len(), out.as_mut_ptr());
    }
    Err(match out {
        [0, length] => return Ok(length as usize),
        [47, _] => Refusal::SampleAreaShort,
        [48, _] => Refusal::NoProduction,
        [49, _] => Refusal::SampleLong,
        [number, nonterminal] => Refusal::Card { refusal: generator::Refusal::of_card(number, nonterminal) },
    })
}

/// The sample for a production, with an area of its own.
pub fn sample_of(card: &[u16], production: u64) -> Result<Vec<u8>, Refusal> {
    let mut area = vec![0; SAMPLE];
    let length = sample(card, production, &mut area)?;
    area.truncate(length);
    Ok(area)
}
