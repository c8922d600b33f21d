//! The kinds of calls that must come.

use reference::card::Card;
use reference::sample::{checked, out, sample, Sampled, Samples, MOST};
use reference::shortest::{lengths, Length};

use super::calls::Call;

/// What is known of a call whose card passes 4 to 10 and has the production.
struct Known {
    card: Card,
    least: Length,
    /// The length of the shortest sentence.
    shortest: Option<Length>,
    /// The productions that lead to it.
    path: usize,
    /// The parts of a sample, if there is one: before, its own, behind.
    parts: Option<[Vec<u8>; 3]>,
}

/// A call, and what the reference says of it.
pub struct Tried<'a> {
    call: &'a Call,
    number: u64,
    /// What it would be in an area that is long enough.
    long_enough: u64,
    known: Option<Known>,
}

impl<'a> Tried<'a> {
    fn new(call: &'a Call, expected: &Sampled) -> Tried<'a> {
        let number = out(expected)[0];
        let long_enough = match number {
            47 => out(&sample(&call.card, call.production, MOST))[0],
            _ => number,
        };
        let known = matches!(number, 0 | 49).then(|| {
            let card = checked(&call.card).expect("a card past 4 to 10");
            let samples = Samples::new(&card);
            let which = call.production as usize;
            let least = samples.least(which);
            let (path, shortest) = (samples.path(which).len(), lengths(&card)[card.start()]);
            let parts = (number == 0).then(|| samples.parts(which));
            Known { least, shortest, path, parts, card }
        });
        Tried { call, number, long_enough, known }
    }

    fn size(&self, which: usize) -> u64 {
        self.call.card.get(which).map_or(0, |&size| size.into())
    }

    /// A sample is found, and this holds of it.
    fn sample(&self, is: impl Fn(&Known) -> bool) -> bool {
        self.number == 0 && self.known.as_ref().is_some_and(is)
    }

    /// It has so many terminals.
    fn length(&self, from: Length, to: Length) -> bool {
        self.sample(|known| (from..=to).contains(&known.least))
    }

    /// 49, and this holds of the length.
    fn long(&self, is: impl Fn(Length) -> bool) -> bool {
        self.number == 49 && self.known.as_ref().is_some_and(|known| is(known.least))
    }

    /// Terminals before and behind the production's own part.
    fn around(&self, before: bool, behind: bool) -> bool {
        let is =
            |[one, _, two]: &[Vec<u8>; 3]| one.is_empty() != before && two.is_empty() != behind;
        self.sample(|known| known.parts.as_ref().is_some_and(is))
    }

    /// 47 beside another answer.
    fn short(&self, number: u64) -> bool {
        self.number == 47 && self.long_enough == number
    }

    /// 48, but not by these bits.
    fn by_bits(&self, bits: u32) -> bool {
        self.number == 48 && self.call.production % (1 << bits) < self.size(2)
    }

    /// A sample is found, and this holds of the production.
    fn production(&self, is: impl Fn(&Card, usize, &[usize]) -> bool) -> bool {
        self.sample(|known| {
            let (left, right) = &known.card.productions[self.call.production as usize];
            is(&known.card, *left, right)
        })
    }

    /// Two nonterminals are each other's unit productions, or one is its own.
    fn cycle(&self) -> bool {
        self.sample(|known| {
            let all = &known.card.productions;
            let back = |left: usize, right: &[usize]| {
                all.iter().any(|(other, to)| right == [*other] && to[..] == [left])
            };
            all.iter().any(|(left, right)| back(*left, right))
        })
    }

    fn past_last(&self) -> bool {
        self.call.production >= self.size(2)
    }

    /// A sample is found in an area of so many bytes.
    fn room(&self, from: usize, to: usize) -> bool {
        self.number == 0 && (from..=to).contains(&self.call.room)
    }
}

type Kind = (&'static str, fn(&Tried) -> bool);

pub const KINDS: [Kind; 72] = [
    ("a sample", |t| t.number == 0),
    ("4", |t| t.number == 4),
    ("5", |t| t.number == 5),
    ("6", |t| t.number == 6),
    ("7", |t| t.number == 7),
    ("8", |t| t.number == 8),
    ("9", |t| t.number == 9),
    ("10", |t| t.number == 10),
    ("47", |t| t.number == 47),
    ("48", |t| t.number == 48),
    ("49", |t| t.number == 49),
    ("47 beside 4 to 9", |t| (4..10).any(|number| t.short(number))),
    ("47 beside 10", |t| t.short(10)),
    ("47 beside 48", |t| t.short(48)),
    ("47 beside 49", |t| t.short(49)),
    ("47 and no other", |t| t.short(0)),
    ("4 to 9, no such production", |t| (4..10).contains(&t.number) && t.past_last()),
    ("10, no such production", |t| t.number == 10 && t.past_last()),
    ("an empty area", |t| t.call.room == 0),
    ("an area of 254 bytes", |t| t.call.room == 254),
    ("an area of 255 bytes", |t| t.room(255, 255)),
    ("an area of 256 bytes", |t| t.room(256, 256)),
    ("an area of 257 to 999 bytes", |t| t.room(257, 999)),
    ("an area of over 65,535 bytes", |t| t.room(65_536, 100_000)),
    ("an area of over 65,535 bytes, refused", |t| t.number != 0 && t.call.room > 65_535),
    ("the first production", |t| t.number == 0 && t.call.production == 0),
    ("the last production", |t| t.number == 0 && t.call.production + 1 == t.size(2)),
    ("production P", |t| t.number == 48 && t.call.production == t.size(2)),
    ("48, but not by 8 bits", |t| t.by_bits(8)),
    ("48, but not by 16 bits", |t| t.by_bits(16)),
    ("48, but not by 32 bits", |t| t.by_bits(32)),
    ("48, but not by 63 bits", |t| t.by_bits(63)),
    ("48 of over 63 bits", |t| t.number == 48 && t.call.production >> 63 == 1),
    ("length 0", |t| t.length(0, 0)),
    ("length 1", |t| t.length(1, 1)),
    ("length 2 to 9", |t| t.length(2, 9)),
    ("length 10 to 99", |t| t.length(10, 99)),
    ("length 100 to 253", |t| t.length(100, 253)),
    ("length 254", |t| t.length(254, 254)),
    ("length 255", |t| t.length(255, 255)),
    ("49 with 256", |t| t.long(|length| length == 256)),
    ("49 with 257 to 65,535", |t| t.long(|length| (257..65_536).contains(&length))),
    ("49, but not by 8 bits", |t| t.long(|length| length % 256 < 20)),
    ("49, but not by 16 bits", |t| t.long(|length| length % (1 << 16) < 256)),
    ("49, but not by 32 bits", |t| t.long(|length| length % (1 << 32) < 256)),
    ("49, and a short sentence", |t| {
        t.number == 49 && t.known.as_ref().is_some_and(|k| k.shortest < Some(100))
    }),
    ("no terminals around", |t| t.around(false, false)),
    ("terminals before alone", |t| t.around(true, false)),
    ("terminals behind alone", |t| t.around(false, true)),
    ("terminals before and behind", |t| t.around(true, true)),
    ("reached by one production", |t| t.sample(|known| known.path == 1)),
    ("reached by three to nine", |t| t.sample(|known| (3..10).contains(&known.path))),
    ("reached by ten and more", |t| t.sample(|known| known.path >= 10)),
    ("reached by fifty and more", |t| t.sample(|known| known.path >= 50)),
    ("empty, reached by three and more", |t| t.sample(|k| k.least == 0 && k.path >= 3)),
    ("as short as any sentence", |t| t.sample(|k| k.shortest == Some(k.least))),
    ("longer than the shortest sentence", |t| t.sample(|k| k.shortest < Some(k.least))),
    ("an empty right side", |t| t.production(|_, _, right| right.is_empty())),
    ("no empty right side, no terminals", |t| {
        t.length(0, 0) && t.production(|_, _, right| !right.is_empty())
    }),
    ("the left side on the right, too", |t| t.production(|_, left, right| right.contains(&left))),
    ("of a start that recurs", |t| {
        t.production(|card, left, _| {
            let on_right = card.productions.iter().any(|(_, right)| right.contains(&left));
            left == card.start() && on_right
        })
    }),
    ("a right side of over 100 symbols", |t| t.production(|_, _, right| right.len() > 100)),
    ("a right side of 255 symbols", |t| t.production(|_, _, right| right.len() == 255)),
    ("unit productions in a cycle", |t| t.cycle()),
    ("1 terminal", |t| t.number == 0 && t.size(0) == 1),
    ("64 terminals", |t| t.number == 0 && t.size(0) == 64),
    ("terminal 63", |t| {
        let last = |parts: &[Vec<u8>; 3]| parts.iter().flatten().any(|&m| m == 63);
        t.sample(|known| known.parts.as_ref().is_some_and(last))
    }),
    ("60 nonterminals", |t| t.number == 0 && t.size(1) == 60),
    ("128 productions", |t| t.number == 0 && t.size(2) == 128),
    ("production 127", |t| t.number == 0 && t.call.production == 127),
    ("512 symbols", |t| t.number == 0 && t.size(3) == 512),
    ("a card of over 65,535 numbers", |t| t.number == 6 && t.call.card.len() > 65_535),
];

/// How many calls of each kind were seen.
pub struct Kinds(pub [u64; KINDS.len()]);

impl Default for Kinds {
    fn default() -> Kinds {
        Kinds([0; KINDS.len()])
    }
}

impl Kinds {
    pub fn count(&mut self, call: &Call, expected: &Sampled) {
        let tried = Tried::new(call, expected);
        for (count, (_, is)) in self.0.iter_mut().zip(KINDS) {
            *count += u64::from(is(&tried));
        }
    }
}
