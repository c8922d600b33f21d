//! Is an input a sentence, how much of it begins one, and what can follow that?
//! Earley's sets, for any grammar without useless nonterminals.

use std::collections::HashSet;

use crate::grammar::Grammar;

#[derive(Clone, Copy, Debug, PartialEq, Eq)]
pub struct Recognition {
    pub sentence: bool,
    /// How many terminals of the input begin a sentence.
    pub begins: usize,
    /// What can follow these terminals: bit m where they and m begin a sentence, bit 0
    /// where they are one.
    pub follow: u64,
}

/// A production, the dot in it and the position where it began.
type Item = (usize, usize, usize);

#[derive(Default)]
struct Set {
    items: Vec<Item>,
    known: HashSet<Item>,
}

impl Set {
    fn add(&mut self, item: Item) {
        if self.known.insert(item) {
            self.items.push(item);
        }
    }
}

/// Adds what follows from an item of the set at a position.
fn follow_up(grammar: &Grammar, input: &[u8], sets: &mut [Set], position: usize, item: Item) {
    let (production, dot, origin) = item;
    match grammar.rights[production].get(dot) {
        Some(&symbol) if grammar.card.is_terminal(symbol) => {
            if input.get(position).map(|&m| m as usize) == Some(symbol) {
                sets[position + 1].add((production, dot + 1, origin));
            }
        }
        Some(&symbol) => {
            for &of in &grammar.of[symbol] {
                sets[position].add((of, 0, position));
            }
            if grammar.nullable[symbol] {
                sets[position].add((production, dot + 1, origin));
            }
        }
        None if production != grammar.added() => {
            let left = grammar.card.productions[production].0;
            let mut waiting = 0;
            while waiting < sets[origin].items.len() {
                let (p, d, o) = sets[origin].items[waiting];
                if grammar.rights[p].get(d) == Some(&left) {
                    sets[position].add((p, d + 1, o));
                }
                waiting += 1;
            }
        }
        None => {}
    }
}

/// Since every nonterminal derives terminals, the terminals so far begin a
/// sentence exactly if the set behind them is not empty.
pub fn recognise(grammar: &Grammar, input: &[u8]) -> Recognition {
    let mut sets: Vec<Set> = (0..=input.len()).map(|_| Set::default()).collect();
    sets[0].add((grammar.added(), 0, 0));
    for position in 0..=input.len() {
        let mut at = 0;
        while at < sets[position].items.len() {
            let item = sets[position].items[at];
            at += 1;
            follow_up(grammar, input, &mut sets, position, item);
        }
    }
    let begins = sets.iter().take_while(|set| !set.items.is_empty()).count() - 1;
    let sentence = |set: &Set| set.known.contains(&(grammar.added(), 1, 0));
    let mut follow = u64::from(sentence(&sets[begins]));
    for &(production, dot, _) in &sets[begins].items {
        match grammar.rights[production].get(dot) {
            Some(&symbol) if grammar.card.is_terminal(symbol) => follow |= 1 << symbol,
            _ => {}
        }
    }
    Recognition { sentence: sentence(&sets[input.len()]), begins, follow }
}
