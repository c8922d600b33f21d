//! Samples without the reference's: the list of all short sentences with a derivation that
//! uses the production, and the maker. Of a card that it refuses by 4 to 10 there is no
//! sample, and by its table the sample is accepted and the production listed: a card that
//! has a table is not ambiguous.

use std::collections::HashMap;

use reference::card::parse;
use reference::listing::Listing;

use super::calls::Call;
use crate::maker::Maker;

/// What was seen.
#[derive(Default)]
pub struct Counts {
    /// Samples that are listed, and such that are longer than what is.
    pub listed: [u64; 2],
    /// Samples by the maker's answer, and such that were read by its table.
    pub answers: [u64; 14],
    pub read: u64,
    /// Cards that maker and sample refuse alike, by 4 to 10.
    pub refused: u64,
}

/// What is answered, with the sample if there is one: as many bytes as are told, as far as
/// they are there.
pub struct Told<'a> {
    pub out: [u64; 2],
    pub sample: &'a [u8],
}

/// The lines over the terminals below each T that was asked for.
#[derive(Default)]
pub struct Listings(HashMap<usize, Listing>);

impl Listings {
    pub fn below(&mut self, terminals: usize) -> &Listing {
        self.0.entry(terminals).or_insert_with(|| Listing::new(terminals))
    }
}

/// A call for a small card, and the short sentences that have the production.
pub struct Small {
    pub call: Call,
    listed: Vec<Vec<u8>>,
    /// All sentences with it that have at most so many terminals are listed.
    longest: usize,
}

impl Small {
    pub fn new(call: Call, listings: &mut Listings) -> Small {
        let card = parse(&call.card).expect("a card without a fault of form");
        let listing = listings.below(card.terminals);
        let listed = listing.using(&card, call.production as usize);
        let listed = listed.into_iter().map(<[u8]>::to_vec).collect();
        Small { call, listed, longest: listing.longest() }
    }

    /// The sample is listed, and nothing shorter; or nothing is, and it is longer.
    pub fn told(&self, told: &Told, counts: &mut Counts) -> Result<(), String> {
        let Told { out, sample } = told;
        let Some(least) = self.listed.first().map(Vec::len) else {
            counts.listed[1] += 1;
            let longer = *out == [49, 0] || out[0] == 0 && out[1] > self.longest as u64;
            return longer.then_some(()).ok_or(format!("answer {out:?}, and none is listed"));
        };
        counts.listed[0] += 1;
        if *out != [0, least as u64] {
            return Err(format!("answer {out:?}, and {:?} is listed", self.listed[0]));
        }
        let listed = self.listed.iter().any(|line| line == sample);
        listed.then_some(()).ok_or(format!("{sample:?} is not listed"))
    }
}

/// What the maker makes of a call's card, and its table of the sample.
pub fn made(
    call: &Call,
    told: &Told,
    maker: &mut Maker,
    counts: &mut Counts,
) -> Result<(), String> {
    let Told { out, sample } = told;
    let answer = maker.answer(&call.card);
    if (4..=10).contains(&answer[0]) || (4..=10).contains(&out[0]) {
        counts.refused += 1;
        let alike = answer == *out;
        return alike.then_some(()).ok_or(format!("answer {out:?}, and the maker's {answer:?}"));
    }
    if out[0] != 0 {
        return Ok(());
    }
    counts.answers[answer[0].min(13) as usize] += 1;
    if answer[0] != 0 {
        return Ok(());
    }
    let Some(list) = maker.read(sample) else { return Ok(()) };
    counts.read += 1;
    match list {
        Some(list) if list.iter().any(|&p| u64::from(p) == call.production) => Ok(()),
        _ => Err(format!("sample {sample:?}, productions {list:?}")),
    }
}
