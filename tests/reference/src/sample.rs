//! A shortest sentence with a derivation that uses a production. Knuth's algorithm gives
//! each nonterminal a shortest string; Dijkstra's gives it a context, the fewest terminals
//! that stand before and behind it in a string that the start derives. The sample is the
//! context of the production's left side around the shortest string of its right side.

use crate::card::{parse, Card};
use crate::grammar::useless;
use crate::shortest::{settled, Length};

/// The most terminals of a sample, and what an area must have.
pub const MOST: usize = 255;

#[derive(Clone, Copy, Debug, PartialEq, Eq)]
pub enum Refusal {
    /// 47: the area is too short.
    Area,
    /// One of 4 to 10; with 10 the nonterminal, else 0.
    Card(u64, u64),
    /// 48: the card has no such production.
    Production,
    /// 49: every sentence with a derivation that uses it is too long.
    Long,
}

/// A sample, or why there is none.
pub type Sampled = Result<Vec<u8>, Refusal>;

/// The answer as the C boundary has it: number, value.
pub fn out(sampled: &Sampled) -> [u64; 2] {
    match *sampled {
        Ok(ref sample) => [0, sample.len() as u64],
        Err(Refusal::Area) => [47, 0],
        Err(Refusal::Card(number, nonterminal)) => [number, nonterminal],
        Err(Refusal::Production) => [48, 0],
        Err(Refusal::Long) => [49, 0],
    }
}

/// No length above this is told from it; so no sum is too large for a number.
const FAR: Length = 1 << 64;

/// How a nonterminal is reached with the fewest terminals around it: how many there are,
/// and the production and the place in its right side; none for the start.
type Context = (Length, Option<(usize, usize)>);

/// A card past 4 to 10, with what its samples are made of.
pub struct Samples<'a> {
    card: &'a Card,
    lengths: Vec<Length>,
    /// The production by which the shortest string of each nonterminal begins.
    chosen: Vec<Option<usize>>,
    contexts: Vec<Option<Context>>,
}

impl<'a> Samples<'a> {
    pub fn new(card: &'a Card) -> Samples<'a> {
        let (lengths, chosen) = settled(card);
        let lengths = lengths.into_iter().map(|length| length.map_or(FAR, |l| l.min(FAR)));
        let contexts = vec![None; card.symbols()];
        let mut samples = Samples { card, lengths: lengths.collect(), chosen, contexts };
        samples.contexts[card.start()] = Some((0, None));
        while let Some((length, symbol, by)) = samples.nearest() {
            samples.contexts[symbol] = Some((length, Some(by)));
        }
        samples
    }

    /// The length of the shortest string that a string of symbols derives.
    fn length(&self, string: &[usize]) -> Length {
        string.iter().map(|&symbol| self.lengths[symbol]).sum()
    }

    /// The nonterminal without a context that is reached with the fewest terminals around
    /// it from one that has one.
    fn nearest(&self) -> Option<(Length, usize, (usize, usize))> {
        let mut nearest = None;
        for ((left, right), production) in self.card.productions.iter().zip(0..) {
            let Some((around, _)) = self.contexts[*left] else { continue };
            let all = around + self.length(right);
            for (&symbol, place) in right.iter().zip(0..) {
                if !self.card.is_terminal(symbol) && self.contexts[symbol].is_none() {
                    let found = (all - self.lengths[symbol], symbol, (production, place));
                    nearest = Some(nearest.map_or(found, |known| found.min(known)));
                }
            }
        }
        nearest
    }

    /// The length of a shortest sentence with a derivation that uses the production.
    pub fn least(&self, production: usize) -> Length {
        let (left, right) = &self.card.productions[production];
        let (around, _) = self.contexts[*left].expect("every nonterminal is reached");
        around + self.length(right)
    }

    /// Writes the shortest string of a string of symbols. What derives the empty string is
    /// left out: it may take more steps than anyone would wait for.
    fn write(&self, string: &[usize], into: &mut Vec<u8>) {
        for &symbol in string {
            if self.card.is_terminal(symbol) {
                into.push(symbol as u8);
            } else if self.lengths[symbol] > 0 {
                let chosen = self.chosen[symbol].expect("every nonterminal is productive");
                self.write(&self.card.productions[chosen].1, into);
            }
        }
    }

    /// How the production's left side is reached, from the inside out: productions, with the
    /// places in their right sides.
    pub fn path(&self, production: usize) -> Vec<(usize, usize)> {
        let mut path = Vec::new();
        let mut left = self.card.productions[production].0;
        while let Some((_, Some((by, place)))) = self.contexts[left] {
            path.push((by, place));
            left = self.card.productions[by].0;
        }
        path
    }

    /// A sentence of the least length, which should not be large: what is before the
    /// production's own part, that part, and what is behind it.
    pub fn parts(&self, production: usize) -> [Vec<u8>; 3] {
        let path = self.path(production);
        let right = |production: usize| &self.card.productions[production].1;
        let mut parts = [vec![], vec![], vec![]];
        for &(by, place) in path.iter().rev() {
            self.write(&right(by)[..place], &mut parts[0]);
        }
        self.write(right(production), &mut parts[1]);
        for (by, place) in path {
            self.write(&right(by)[place + 1..], &mut parts[2]);
        }
        parts
    }

    pub fn sentence(&self, production: usize) -> Vec<u8> {
        self.parts(production).concat()
    }
}

/// A card past 4 to 10.
pub fn checked(numbers: &[u16]) -> Result<Card, Refusal> {
    let card = parse(numbers).map_err(|number| Refusal::Card(number, 0))?;
    match useless(&card) {
        Some(nonterminal) => Err(Refusal::Card(10, nonterminal as u64)),
        None => Ok(card),
    }
}

/// The sample for a production, in an area of so many places.
pub fn sample(card: &[u16], production: u64, room: usize) -> Sampled {
    if room < MOST {
        return Err(Refusal::Area);
    }
    let card = checked(card)?;
    if production >= card.productions.len() as u64 {
        return Err(Refusal::Production);
    }
    let samples = Samples::new(&card);
    match samples.least(production as usize) > MOST as Length {
        true => Err(Refusal::Long),
        false => Ok(samples.sentence(production as usize)),
    }
}

/// The call, as the reference answers it.
pub fn call(card: &[u16], production: u64, area: &mut [u8]) -> [u64; 2] {
    let sampled = sample(card, production, area.len());
    if let Ok(sample) = &sampled {
        area[..MOST].fill(0);
        area[..sample.len()].copy_from_slice(sample);
    }
    out(&sampled)
}
