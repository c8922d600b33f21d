//! A second way to the same automaton: LR(0) sets first, numbered as they are
//! found; then the lookaheads of every item of every state are spread inside
//! the states and along the transitions until nothing changes.

use std::collections::HashMap;

use crate::automaton::{Automaton, Missing, MAX_STATES};
use crate::grammar::Grammar;
use crate::items::Items;

/// The items of an LR(0) state, ascending.
type State = Vec<usize>;

/// The states with their transitions.
struct States {
    states: Vec<State>,
    next: Vec<Vec<Option<usize>>>,
}

/// A kernel with the first items of all nonterminals met after a dot.
fn close(grammar: &Grammar, items: &Items, kernel: &[usize]) -> State {
    let mut state = kernel.to_vec();
    let mut met = vec![false; grammar.card.symbols()];
    let mut at = 0;
    while at < state.len() {
        if let Some(symbol) = items.after[state[at]] {
            if !std::mem::replace(&mut met[symbol], true) {
                for &production in &grammar.of[symbol] {
                    let first = items.first[production];
                    if !kernel.contains(&first) {
                        state.push(first);
                    }
                }
            }
        }
        at += 1;
    }
    state.sort_unstable();
    state
}

fn states(grammar: &Grammar, items: &Items) -> Result<States, Missing> {
    let symbols = grammar.card.symbols();
    let kernel = vec![items.first[grammar.added()]];
    let mut number_of = HashMap::from([(kernel.clone(), 0)]);
    let mut all = States { states: vec![close(grammar, items, &kernel)], next: Vec::new() };
    while all.next.len() < all.states.len() {
        let mut kernels = vec![Vec::new(); symbols];
        for &item in &all.states[all.next.len()] {
            if let Some(symbol) = items.after[item] {
                kernels[symbol].push(item + 1);
            }
        }
        let mut row = vec![None; symbols];
        for (symbol, kernel) in kernels.into_iter().enumerate() {
            if kernel.is_empty() {
                continue;
            }
            let fresh = all.states.len();
            if let Some(&found) = number_of.get(&kernel) {
                row[symbol] = Some(found);
                continue;
            }
            if fresh == MAX_STATES {
                return Err(Missing::TooManyStates);
            }
            all.states.push(close(grammar, items, &kernel));
            number_of.insert(kernel, fresh);
            row[symbol] = Some(fresh);
        }
        all.next.push(row);
    }
    Ok(all)
}

/// The symbol before the dot of an item whose dot is not at the left end; 0 in the
/// first state, which has none.
fn before_dot(grammar: &Grammar, items: &Items, state: &State) -> usize {
    let places = state.iter().map(|&item| items.at[item]);
    let mut symbols = places.filter(|at| at.1 > 0).map(|at| grammar.rights[at.0][at.1 - 1]);
    symbols.next().unwrap_or(0)
}

pub fn automaton(grammar: &Grammar) -> Result<Automaton, Missing> {
    let items = Items::new(grammar);
    let States { states, next } = states(grammar, &items)?;

    let mut lookaheads = vec![vec![0u64; items.count()]; states.len()];
    lookaheads[0][items.first[grammar.added()]] = 1;
    let mut waiting: Vec<(usize, usize)> = vec![(0, items.first[grammar.added()])];
    while let Some((state, item)) = waiting.pop() {
        let Some(symbol) = items.after[item] else {
            continue;
        };
        let carried = lookaheads[state][item];
        let first = grammar.first_of(items.behind(grammar, item), carried);
        let inside = grammar.of[symbol].iter().map(|&p| (state, items.first[p], first));
        let along = (next[state][symbol].expect("a transition"), item + 1, carried);
        for (to, target, set) in inside.chain([along]) {
            let known = &mut lookaheads[to][target];
            if *known | set != *known {
                *known |= set;
                waiting.push((to, target));
            }
        }
    }

    let complete = states
        .iter()
        .zip(&lookaheads)
        .map(|(state, sets)| {
            let ends = state.iter().filter(|&&item| items.after[item].is_none());
            ends.map(|&item| (items.at[item].0, sets[item])).collect()
        })
        .collect();
    let entered = states.iter().map(|state| before_dot(grammar, &items, state)).collect();
    Ok(Automaton { next, complete, entered })
}
