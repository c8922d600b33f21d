//! All short sentences with a derivation that uses a production, by listing what each symbol
//! derives until nothing is added. It knows no lengths and no contexts.

use std::collections::HashMap;

use crate::card::Card;

/// At most so many lines are listed, and none with more terminals.
const LINES: usize = 128;
const LONGEST: usize = 24;

/// A set of lines, bit by bit.
type Set = u128;

/// All lines over some terminals, up to as long a one as there is room for.
pub struct Listing {
    lines: Vec<Vec<u8>>,
    /// The number of one line followed by another, if it is not too long.
    followed: Vec<Vec<Option<usize>>>,
}

/// The lines that something derives: by any derivation, by one that uses the production.
#[derive(Clone, Copy, Default, PartialEq, Eq)]
struct Derived {
    any: Set,
    using: Set,
}

fn members(mut set: Set) -> impl Iterator<Item = usize> {
    std::iter::from_fn(move || {
        let line = set.trailing_zeros() as usize;
        set &= set.wrapping_sub(1);
        (line < LINES).then_some(line)
    })
}

impl Listing {
    /// Lines of terminals below T.
    pub fn new(terminals: usize) -> Listing {
        let mut lines: Vec<Vec<u8>> = vec![vec![]];
        let mut last = lines.clone();
        let more = terminals - 1;
        while more > 0 && last[0].len() < LONGEST && lines.len() + more * last.len() <= LINES {
            let longer = |line: &Vec<u8>| {
                (1..terminals).map(|m| [line.as_slice(), &[m as u8]].concat()).collect::<Vec<_>>()
            };
            last = last.iter().flat_map(longer).collect();
            lines.extend(last.clone());
        }
        let number: HashMap<&Vec<u8>, usize> = lines.iter().zip(0..).collect();
        let joined = |one: &Vec<u8>, two: &Vec<u8>| number.get(&[one.as_slice(), two].concat());
        let row = |one| lines.iter().map(|two| joined(one, two).copied()).collect();
        let followed = lines.iter().map(row).collect();
        Listing { lines, followed }
    }

    /// The length of the longest lines.
    pub fn longest(&self) -> usize {
        self.lines[self.lines.len() - 1].len()
    }

    /// Each line of one set followed by each of another. Line 0 is the empty one.
    fn join(&self, one: Set, two: Set) -> Set {
        match (one, two) {
            (0, _) | (_, 0) => 0,
            (1, other) | (other, 1) => other,
            _ => members(one).fold(0, |set, one| {
                let row = &self.followed[one];
                members(two).fold(set, |set, two| row[two].map_or(set, |line| set | 1 << line))
            }),
        }
    }

    /// What a string of symbols derives.
    fn string(&self, string: &[usize], of: &[Derived]) -> Derived {
        let empty = Derived { any: 1, using: 0 };
        string.iter().fold(empty, |before, &symbol| Derived {
            any: self.join(before.any, of[symbol].any),
            using: self.join(before.using, of[symbol].any)
                | self.join(before.any, of[symbol].using),
        })
    }

    /// The listed sentences with a derivation that uses the production, none before a
    /// shorter one.
    pub fn using(&self, card: &Card, production: usize) -> Vec<&[u8]> {
        let mut of = vec![Derived::default(); card.symbols()];
        for (line, number) in self.lines.iter().zip(0..) {
            if let [terminal] = line[..] {
                of[terminal as usize].any = 1 << number;
            }
        }
        loop {
            let old = of.clone();
            for ((left, right), number) in card.productions.iter().zip(0..) {
                let found = self.string(right, &of);
                let using = if number == production { found.any } else { found.using };
                of[*left].any |= found.any;
                of[*left].using |= using;
            }
            if of == old {
                let sentences = members(of[card.start()].using);
                return sentences.map(|line| self.lines[line].as_slice()).collect();
            }
        }
    }
}
