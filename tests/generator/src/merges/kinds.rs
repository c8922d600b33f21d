//! The kinds of pairs and areas that must come.

use reference::answer::grammar;
use reference::merge::{out, Merged, Refusal, Which};

use super::pairs::Pair;

/// A pair, what the reference says of it, and what each card alone gets.
pub struct Tried<'a> {
    pair: &'a Pair,
    expected: &'a Merged,
    /// Only where the first card is refused: the second's number, 0 for none.
    second: u64,
}

impl Tried<'_> {
    fn number(&self) -> u64 {
        out(self.expected)[0]
    }

    fn told(&self, number: u64, which: Which) -> bool {
        out(self.expected)[..2] == [number, which as u64]
    }

    fn second_told(&self) -> bool {
        matches!(self.expected, Err(Refusal::Card(Which::Second, ..)))
    }

    /// A size of a card, 0 past its end.
    fn size(&self, card: &[u16], which: usize) -> usize {
        card.get(which).map_or(0, |&size| size.into())
    }

    /// Both cards pass 4 to 10.
    fn good(&self) -> bool {
        !matches!(self.expected, Err(Refusal::Card(Which::First | Which::Second, ..)))
    }

    /// The cards have a T each, and differ in it.
    fn differ(&self) -> bool {
        let [one, two] = [&self.pair.first, &self.pair.second].map(|card| self.size(card, 0));
        one != two && one > 0 && two > 0
    }

    /// A size of the merged card, where both cards and T are good.
    fn merged(&self, which: usize) -> Option<usize> {
        let sum = self.size(&self.pair.first, which) + self.size(&self.pair.second, which);
        (self.good() && !self.differ()).then_some(sum + [0, 1, 2, 2][which])
    }

    /// Such sizes of the merged card are over their limits.
    fn over(&self) -> [bool; 3] {
        let limits = [60, 128, 512];
        [1, 2, 3].map(|which| {
            let sum = self.size(&self.pair.first, which) + self.size(&self.pair.second, which);
            self.good() && sum + [0, 1, 2, 2][which] > limits[which - 1]
        })
    }

    fn short(&self) -> bool {
        self.pair.room < self.pair.need()
    }

    /// Merged, in an area that is so much longer.
    fn longer(&self, more: usize) -> bool {
        self.number() == 0 && self.pair.room == self.pair.need() + more
    }

    /// T of a merged card, and the symbols of both cards.
    fn terminals(&self, terminals: usize) -> bool {
        self.number() == 0 && self.pair.first[0] as usize == terminals
    }

    fn no_symbols(&self) -> [bool; 2] {
        [&self.pair.first, &self.pair.second].map(|card| self.number() == 0 && card[3] == 0)
    }
}

type Kind = (&'static str, fn(&Tried) -> bool);

pub const KINDS: [Kind; 54] = [
    ("merged", |t| t.number() == 0),
    ("4 of the first", |t| t.told(4, Which::First)),
    ("5 of the first", |t| t.told(5, Which::First)),
    ("6 of the first", |t| t.told(6, Which::First)),
    ("7 of the first", |t| t.told(7, Which::First)),
    ("8 of the first", |t| t.told(8, Which::First)),
    ("9 of the first", |t| t.told(9, Which::First)),
    ("10 of the first", |t| t.told(10, Which::First)),
    ("4 of the second", |t| t.told(4, Which::Second)),
    ("5 of the second", |t| t.told(5, Which::Second)),
    ("6 of the second", |t| t.told(6, Which::Second)),
    ("7 of the second", |t| t.told(7, Which::Second)),
    ("8 of the second", |t| t.told(8, Which::Second)),
    ("9 of the second", |t| t.told(9, Which::Second)),
    ("10 of the second", |t| t.told(10, Which::Second)),
    ("53", |t| t.number() == 53),
    ("5 of the merged card", |t| t.told(5, Which::Merged)),
    ("54", |t| t.number() == 54),
    ("both cards refused", |t| t.second > 0),
    ("both refused, the second's number lower", |t| t.second > 0 && t.second < t.number()),
    ("10 of the first beside 4 to 9 of the second", |t| {
        t.number() == 10 && (4..10).contains(&t.second)
    }),
    ("the second refused beside 53", |t| t.second_told() && t.differ()),
    ("a card refused, an empty area", |t| !t.good() && t.pair.room == 0),
    ("53 beside 5", |t| t.number() == 53 && t.over() != [false; 3]),
    ("53 beside 54", |t| t.number() == 53 && t.short()),
    ("53, the first has more terminals", |t| t.number() == 53 && t.pair.first > t.pair.second),
    ("53, the first has fewer terminals", |t| t.number() == 53 && t.pair.first < t.pair.second),
    ("5 beside 54", |t| t.told(5, Which::Merged) && t.short()),
    ("5 of N alone", |t| t.told(5, Which::Merged) && t.over() == [true, false, false]),
    ("5 of P alone", |t| t.told(5, Which::Merged) && t.over() == [false, true, false]),
    ("5 of L alone", |t| t.told(5, Which::Merged) && t.over() == [false, false, true]),
    ("N 60", |t| t.number() == 0 && t.merged(1) == Some(60)),
    ("N 61", |t| t.merged(1) == Some(61)),
    ("P 128", |t| t.number() == 0 && t.merged(2) == Some(128)),
    ("P 129", |t| t.merged(2) == Some(129)),
    ("L 512", |t| t.number() == 0 && t.merged(3) == Some(512)),
    ("L 513", |t| t.merged(3) == Some(513)),
    ("P 256 and more", |t| t.merged(2) >= Some(256)),
    ("over 700 numbers", |t| t.number() == 0 && t.pair.need() > 700),
    ("an empty area", |t| t.number() == 54 && t.pair.room == 0),
    ("an area one place short", |t| t.number() == 54 && t.pair.room + 1 == t.pair.need()),
    ("an area as long as the card", |t| t.longer(0)),
    ("an area one place longer", |t| t.longer(1)),
    ("an area over 772 places", |t| t.number() == 0 && t.pair.room > 772),
    ("an area over 65,535 places", |t| t.number() == 0 && t.pair.room > 65_535),
    ("a card of over 65,535 numbers", |t| t.number() == 6 && t.pair.need() > 65_537),
    ("1 terminal", |t| t.terminals(1)),
    ("64 terminals", |t| t.terminals(64)),
    ("no symbols in the first", |t| t.no_symbols()[0]),
    ("no symbols in the second", |t| t.no_symbols()[1]),
    ("no symbols in both", |t| t.no_symbols() == [true; 2]),
    ("one card twice", |t| t.number() == 0 && t.pair.first == t.pair.second),
    ("one slice for both", |t| t.number() == 0 && t.pair.second_at.is_some()),
    ("one slice for both, refused", |t| !t.good() && t.pair.second_at.is_some()),
];

/// How many pairs of each kind were seen.
pub struct Kinds(pub [u64; KINDS.len()]);

impl Default for Kinds {
    fn default() -> Kinds {
        Kinds([0; KINDS.len()])
    }
}

impl Kinds {
    pub fn count(&mut self, pair: &Pair, expected: &Merged) {
        let second = match expected {
            Err(Refusal::Card(Which::First, ..)) => {
                grammar(&pair.second).err().map_or(0, |refused| refused.out()[0])
            }
            _ => 0,
        };
        let tried = Tried { pair, expected, second };
        for (count, (_, is)) in self.0.iter_mut().zip(KINDS) {
            *count += u64::from(is(&tried));
        }
    }
}
