//! Does some derivation of a line use a production? Once by the parts of the line that each
//! symbol derives, and once by Earley's sets for a card in which each nonterminal has a
//! twin. Both take any card past 4 to 9, also one with cycles or an ambiguous one.

use crate::card::Card;
use crate::earley::recognise;
use crate::grammar::Grammar;

/// Positions of a line of at most 255 terminals, bit by bit.
#[derive(Clone, Copy, Default, PartialEq, Eq)]
struct Positions([u64; 4]);

impl Positions {
    fn only(position: usize) -> Positions {
        let mut positions = Positions::default();
        positions.0[position / 64] = 1 << (position % 64);
        positions
    }

    fn has(&self, position: usize) -> bool {
        self.0[position / 64] >> (position % 64) & 1 == 1
    }

    fn join(&mut self, other: &Positions) {
        self.0.iter_mut().zip(other.0).for_each(|(word, more)| *word |= more);
    }

    /// In order, from a position on.
    fn next(&self, from: usize) -> Option<usize> {
        let first = self.0.get(from / 64)? >> (from % 64);
        if first != 0 {
            return Some(from + first.trailing_zeros() as usize);
        }
        let word = (from / 64 + 1..4).find(|&word| self.0[word] != 0)?;
        Some(64 * word + self.0[word].trailing_zeros() as usize)
    }
}

/// Where the parts end that something derives from some position on: by any derivation,
/// and by one that uses the production.
#[derive(Clone, Copy, Default, PartialEq, Eq)]
struct Ends {
    any: Positions,
    using: Positions,
}

struct Parts<'a> {
    card: &'a Card,
    production: usize,
    /// By symbol and the position where the part begins.
    ends: Vec<Vec<Ends>>,
}

impl Parts<'_> {
    /// Where the parts end that a string of symbols derives.
    fn behind(&self, string: &[usize], from: usize) -> Ends {
        let mut reached = Ends { any: Positions::only(from), using: Positions::default() };
        for &symbol in string {
            let (mut next, mut at) = (Ends::default(), 0);
            while let Some(position) = reached.any.next(at) {
                let ends = &self.ends[symbol][position];
                next.any.join(&ends.any);
                let used = reached.using.has(position);
                next.using.join(if used { &ends.any } else { &ends.using });
                at = position + 1;
            }
            if next == Ends::default() {
                return next;
            }
            reached = next;
        }
        reached
    }

    /// Adds what follows from a production for the parts that begin at a position; whether
    /// that is more.
    fn add(&mut self, number: usize, from: usize) -> bool {
        let (left, right) = &self.card.productions[number];
        let mut found = self.behind(right, from);
        if number == self.production {
            found.using = found.any;
        }
        let ends = &mut self.ends[*left][from];
        let old = *ends;
        ends.any.join(&found.any);
        ends.using.join(&found.using);
        *ends != old
    }

    /// Adds all parts that begin at a position; those behind it are known. What follows is
    /// found soon by going through the productions in both directions.
    fn complete(&mut self, from: usize) {
        let last = self.card.productions.len() - 1;
        let mut more = true;
        while more {
            more = false;
            for number in (0..=last).chain((0..last).rev()) {
                more |= self.add(number, from);
            }
        }
    }
}

/// The line is a sentence, and some derivation of it uses the production. Lines of more
/// than 255 terminals are not looked at.
pub fn uses(card: &Card, production: usize, line: &[u8]) -> bool {
    assert!(line.len() < 256, "a line of {} terminals", line.len());
    if line.iter().any(|&m| !card.is_terminal(m.into())) {
        return false;
    }
    let ends = vec![vec![Ends::default(); line.len() + 1]; card.symbols()];
    let mut parts = Parts { card, production, ends };
    for (position, &terminal) in line.iter().enumerate() {
        parts.ends[terminal as usize][position].any = Positions::only(position + 1);
    }
    (0..=line.len()).rev().for_each(|from| parts.complete(from));
    parts.ends[card.start()][0].using.has(line.len())
}

/// The card in which each nonterminal has a twin, which derives what it derives by some
/// derivation that uses the production: one symbol of a right side is a twin, or the
/// production is that one. The twins come first, so the start is one.
pub fn doubled(card: &Card, production: usize) -> Card {
    let plain = |&s: &usize| if card.is_terminal(s) { s } else { s + card.nonterminals };
    let mut productions = Vec::new();
    for ((left, right), number) in card.productions.iter().zip(0..) {
        let own: Vec<usize> = right.iter().map(plain).collect();
        if number == production {
            productions.push((*left, own.clone()));
        }
        for (&symbol, place) in right.iter().zip(0..) {
            let mut with_twin = own.clone();
            with_twin[place] = symbol;
            if !card.is_terminal(symbol) {
                productions.push((*left, with_twin));
            }
        }
        productions.push((plain(left), own));
    }
    Card { terminals: card.terminals, nonterminals: 2 * card.nonterminals, productions }
}

/// The same by Earley's sets: for small cards and short lines.
pub fn uses_by_twins(card: &Card, production: usize, line: &[u8]) -> bool {
    recognise(&Grammar::new(doubled(card, production)), line).sentence
}
