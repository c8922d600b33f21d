//! The LALR(1) automaton, with the states numbered as the paper says.

use std::collections::HashMap;

use crate::grammar::{Grammar, Terminals};

/// The most states a table may have.
pub const MAX_STATES: usize = 256;

#[derive(Clone, Debug, PartialEq, Eq)]
pub struct Automaton {
    /// The state behind each state and symbol.
    pub next: Vec<Vec<Option<usize>>>,
    /// The productions complete in each state, ascending, with their lookaheads.
    pub complete: Vec<Vec<(usize, Terminals)>>,
    /// The entering symbol of each state: the last of every path to it, 0 for state 0.
    pub entered: Vec<usize>,
}

/// Why there is no automaton.
#[derive(Clone, Copy, Debug, PartialEq, Eq)]
pub enum Missing {
    /// More than 256 states.
    TooManyStates,
    /// The method's own bound was met; the answer is not known.
    GaveUp,
}

impl Automaton {
    /// The states with their nonterminals on which there is a transition.
    pub fn nonterminal_transitions(&self, grammar: &Grammar) -> usize {
        let terminals = grammar.card.terminals;
        self.next.iter().map(|row| row[terminals..].iter().flatten().count()).sum()
    }
}

/// Numbers sets: 0 is the first; states are taken in number order and symbols
/// in ascending order, and a new set gets the next number. `go` gives the set
/// behind a set and a symbol.
pub fn number(
    symbols: usize,
    start: usize,
    go: impl Fn(usize, usize) -> Option<usize>,
) -> (Vec<usize>, Vec<Vec<Option<usize>>>) {
    let mut order = vec![start];
    let mut number_of = HashMap::from([(start, 0)]);
    let mut next = Vec::new();
    let mut state = 0;
    while state < order.len() {
        let mut row = vec![None; symbols];
        for symbol in 1..symbols {
            if let Some(set) = go(order[state], symbol) {
                let fresh = order.len();
                let found = *number_of.entry(set).or_insert(fresh);
                if found == fresh {
                    order.push(set);
                }
                row[symbol] = Some(found);
            }
        }
        next.push(row);
        state += 1;
    }
    (order, next)
}
