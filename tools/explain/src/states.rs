//! The states of a card: sets of items, their transitions, lookaheads and conflicts.

use super::card::Card;
use std::collections::{BTreeMap, BTreeSet, VecDeque};

pub const REDUCE: usize = 1024;
pub const ACCEPT: usize = 4096;
const MOST: usize = 256;

/// A production and a dot in its right side; the added production is the last.
type Item = (usize, usize);

struct State {
    /// The items with their lookaheads, bit m for terminal m.
    items: BTreeMap<Item, u64>,
    /// The state behind each symbol after a dot.
    next: BTreeMap<usize, usize>,
}

pub struct States<'a> {
    card: &'a Card,
    all: Vec<State>,
}

/// A cell where actions meet, with their values, ascending.
pub struct Conflict {
    pub state: usize,
    pub terminal: usize,
    pub values: Vec<usize>,
}

/// The items of a set, and those that they bring with them.
fn closure(card: &Card, kernel: &BTreeSet<Item>) -> BTreeSet<Item> {
    let mut all = kernel.clone();
    let mut waiting: Vec<Item> = kernel.iter().copied().collect();
    while let Some((production, dot)) = waiting.pop() {
        let Some(&symbol) = card.right(production).get(dot) else { continue };
        for (fresh, (left, _)) in card.productions.iter().enumerate() {
            if *left == symbol && all.insert((fresh, 0)) {
                waiting.push((fresh, 0));
            }
        }
    }
    all
}

/// Which symbols derive the empty string, and the terminals that begin what each derives.
fn firsts(card: &Card) -> (Vec<bool>, Vec<u64>) {
    let mut empty = vec![false; card.t + card.n];
    let mut first: Vec<u64> = (0..card.t + card.n).map(|x| if x < card.t { 1 << x } else { 0 }).collect();
    loop {
        let before = (empty.clone(), first.clone());
        for (left, right) in &card.productions {
            let nullable = right.iter().take_while(|&&symbol| empty[symbol]).count();
            for &symbol in right.iter().take(nullable + 1) {
                first[*left] |= first[symbol];
            }
            empty[*left] |= nullable == right.len();
        }
        if before == (empty.clone(), first.clone()) {
            return before;
        }
    }
}

impl<'a> States<'a> {
    /// The states; nothing where they are more than 256.
    pub fn of(card: &'a Card) -> Option<States<'a>> {
        let start = BTreeSet::from([(card.productions.len(), 0)]);
        let mut number = BTreeMap::from([(start.clone(), 0)]);
        let mut kernels = vec![start];
        let mut all: Vec<State> = Vec::new();
        while all.len() < kernels.len() {
            let items = closure(card, &kernels[all.len()]);
            let mut behind: BTreeMap<usize, BTreeSet<Item>> = BTreeMap::new();
            for &(production, dot) in &items {
                if let Some(&symbol) = card.right(production).get(dot) {
                    behind.entry(symbol).or_default().insert((production, dot + 1));
                }
            }
            let mut next = BTreeMap::new();
            for (symbol, kernel) in behind {
                let fresh = kernels.len();
                let found = *number.entry(kernel.clone()).or_insert(fresh);
                if found == fresh {
                    kernels.push(kernel);
                }
                next.insert(symbol, found);
            }
            if kernels.len() > MOST {
                return None;
            }
            all.push(State { items: items.into_iter().map(|item| (item, 0)).collect(), next });
        }
        let mut states = States { card, all };
        states.spread();
        Some(states)
    }

    /// Lookaheads go from an item to the items that it brings with it, and along transitions, until nothing changes.
    fn spread(&mut self) {
        let (empty, first) = firsts(self.card);
        let start = (self.card.productions.len(), 0);
        self.all[0].items.insert(start, 1);
        let mut waiting = VecDeque::from([(0, start)]);
        while let Some((state, (production, dot))) = waiting.pop_front() {
            let right = self.card.right(production);
            let Some(&symbol) = right.get(dot) else { continue };
            let carried = self.all[state].items[&(production, dot)];
            let rest = &right[dot + 1..];
            let nullable = rest.iter().take_while(|&&symbol| empty[symbol]).count();
            let mut begun = rest.iter().take(nullable + 1).fold(0, |set, &symbol| set | first[symbol]);
            if nullable == rest.len() {
                begun |= carried;
            }
            let mut targets = vec![(self.all[state].next[&symbol], (production, dot + 1), carried)];
            for (fresh, (left, _)) in self.card.productions.iter().enumerate() {
                if *left == symbol {
                    targets.push((state, (fresh, 0), begun));
                }
            }
            for (to, item, set) in targets {
                let known = self.all[to].items.get_mut(&item).expect("an item of the state");
                if *known | set != *known {
                    *known |= set;
                    waiting.push_back((to, item));
                }
            }
        }
    }

    pub fn count(&self) -> usize {
        self.all.len()
    }

    pub fn nonterminal_transitions(&self) -> usize {
        self.all.iter().map(|state| state.next.range(self.card.t..).count()).sum()
    }

    /// The items of a state with their lookaheads, by production and dot.
    pub fn items(&self, state: usize) -> impl Iterator<Item = (Item, u64)> + '_ {
        self.all[state].items.iter().map(|(&item, &lookaheads)| (item, lookaheads))
    }

    /// The cells where actions meet, by state and terminal.
    pub fn conflicts(&self) -> Vec<Conflict> {
        let mut found = Vec::new();
        for (number, state) in self.all.iter().enumerate() {
            for terminal in 0..self.card.t {
                let mut values: Vec<usize> = state.next.get(&terminal).copied().into_iter().collect();
                for (&(production, dot), lookaheads) in &state.items {
                    if self.card.complete((production, dot)) && lookaheads >> terminal & 1 == 1 {
                        let accepts = production == self.card.productions.len();
                        values.push(if accepts { ACCEPT } else { REDUCE + production });
                    }
                }
                if values.len() > 1 {
                    found.push(Conflict { state: number, terminal, values });
                }
            }
        }
        found
    }

    /// A shortest string of symbols from the first state to a state.
    pub fn path(&self, to: usize) -> Vec<usize> {
        let mut before = vec![None; self.all.len()];
        let mut waiting = VecDeque::from([0]);
        while let Some(state) = waiting.pop_front() {
            for (&symbol, &next) in &self.all[state].next {
                if next != 0 && before[next].is_none() {
                    before[next] = Some((state, symbol));
                    waiting.push_back(next);
                }
            }
        }
        let mut path = Vec::new();
        let mut at = to;
        while let Some((state, symbol)) = before[at] {
            path.push(symbol);
            at = state;
        }
        path.reverse();
        path
    }
}
