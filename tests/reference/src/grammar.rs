//! Nullable, productive and reachable nonterminals; FIRST; refusal 10.

use crate::card::Card;

/// A set of terminals: bit m for terminal m.
pub type Terminals = u64;

/// What is known of each symbol of a card.
pub struct Grammar {
    pub card: Card,
    /// The symbol derives the empty string.
    pub nullable: Vec<bool>,
    /// The terminals that begin a string of terminals derived from the symbol
    /// (right for grammars without unproductive nonterminals).
    pub first: Vec<Terminals>,
    /// The productions of each symbol (none for terminals).
    pub of: Vec<Vec<usize>>,
    /// Right sides; behind those of the card that of the added production.
    pub rights: Vec<Vec<usize>>,
}

/// Repeats the round until it changes nothing.
fn settle(mut round: impl FnMut() -> bool) {
    while round() {}
}

/// The symbols that derive a string of terminals, perhaps the empty one.
pub fn productive(card: &Card) -> Vec<bool> {
    let mut known: Vec<bool> = (0..card.symbols()).map(|s| card.is_terminal(s)).collect();
    settle(|| {
        let mut changed = false;
        for (left, right) in &card.productions {
            if !known[*left] && right.iter().all(|&s| known[s]) {
                known[*left] = true;
                changed = true;
            }
        }
        changed
    });
    known
}

/// The symbols that occur in a string derived from the start, steps by
/// productions that never end included.
fn reachable(card: &Card) -> Vec<bool> {
    let mut known = vec![false; card.symbols()];
    known[card.start()] = true;
    settle(|| {
        let mut changed = false;
        for (left, right) in &card.productions {
            for &symbol in right {
                if known[*left] && !known[symbol] {
                    known[symbol] = true;
                    changed = true;
                }
            }
        }
        changed
    });
    known
}

/// Refusal 10: the lowest nonterminal that is not reachable or not productive.
pub fn useless(card: &Card) -> Option<usize> {
    let (productive, reachable) = (productive(card), reachable(card));
    (card.terminals..card.symbols()).find(|&s| !productive[s] || !reachable[s])
}

impl Grammar {
    pub fn new(card: Card) -> Grammar {
        let mut nullable = vec![false; card.symbols()];
        settle(|| {
            let mut changed = false;
            for (left, right) in &card.productions {
                if !nullable[*left] && right.iter().all(|&s| nullable[s]) {
                    nullable[*left] = true;
                    changed = true;
                }
            }
            changed
        });
        let mut first: Vec<Terminals> = vec![0; card.symbols()];
        for terminal in 0..card.terminals {
            first[terminal] = 1 << terminal;
        }
        settle(|| {
            let mut changed = false;
            for (left, right) in &card.productions {
                for &symbol in right {
                    let joined = first[*left] | first[symbol];
                    changed |= joined != first[*left];
                    first[*left] = joined;
                    if !nullable[symbol] {
                        break;
                    }
                }
            }
            changed
        });
        let mut of = vec![Vec::new(); card.symbols()];
        for (production, (left, _)) in card.productions.iter().enumerate() {
            of[*left].push(production);
        }
        let mut rights: Vec<Vec<usize>> = card.productions.iter().map(|(_, r)| r.clone()).collect();
        rights.push(vec![card.start()]);
        Grammar { card, nullable, first, of, rights }
    }

    /// FIRST of a string followed by one of the terminals `after`.
    pub fn first_of(&self, string: &[usize], after: Terminals) -> Terminals {
        let mut found = 0;
        for &symbol in string {
            found |= self.first[symbol];
            if !self.nullable[symbol] {
                return found;
            }
        }
        found | after
    }

    /// The number of the added production.
    pub fn added(&self) -> usize {
        self.card.productions.len()
    }
}
