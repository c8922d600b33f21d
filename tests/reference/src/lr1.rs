//! The definition: the canonical collection of sets of LR(1) items, with
//! closure and goto as document 003, chapter 4, has them; then the sets with
//! the same core are replaced by their union.

use crate::automaton::{number, Automaton, Missing, MAX_STATES};
use crate::grammar::{Grammar, Terminals};
use crate::hash::Map;
use crate::items::Items;

/// A set of LR(1) items [core, a]: for each core (an LR(0) item) the set of
/// its lookaheads a. A core without lookaheads is not in the set.
pub type ItemSet = Vec<Terminals>;

/// A closure; wrong ones are tried to see that the tests find them.
pub type Close = fn(&Grammar, &Items, &mut ItemSet);

/// The canonical collection: its sets, and the set behind a set and a symbol.
pub struct Collection {
    pub sets: Vec<ItemSet>,
    pub next: Vec<Vec<Option<usize>>>,
}

/// "REPEAT for each item [A -> alpha . B beta, a], each production B -> gamma
/// and each b in FIRST(beta a) add [B -> . gamma, b] UNTIL no more can be added"
pub fn closure(grammar: &Grammar, items: &Items, set: &mut ItemSet) {
    loop {
        let mut added = false;
        for item in 0..items.count() {
            if set[item] == 0 {
                continue;
            }
            let Some(symbol) = items.after[item] else {
                continue;
            };
            if grammar.of[symbol].is_empty() {
                continue;
            }
            let first = grammar.first_of(items.behind(grammar, item), set[item]);
            for &production in &grammar.of[symbol] {
                let target = &mut set[items.first[production]];
                added |= *target | first != *target;
                *target |= first;
            }
        }
        if !added {
            return;
        }
    }
}

/// The closure of the items [A -> alpha X . beta, a] for [A -> alpha . X beta, a]
/// in the set; nothing if there are none.
pub fn goto(
    grammar: &Grammar,
    items: &Items,
    close: Close,
    set: &ItemSet,
    symbol: usize,
) -> Option<ItemSet> {
    let mut moved = vec![0; items.count()];
    for item in 0..items.count() {
        if items.after[item] == Some(symbol) {
            moved[item + 1] = set[item];
        }
    }
    if moved.iter().all(|&lookaheads| lookaheads == 0) {
        return None;
    }
    close(grammar, items, &mut moved);
    Some(moved)
}

/// The symbols on which goto is not empty, ascending.
fn after_dots(items: &Items, symbols: usize, set: &ItemSet) -> Vec<usize> {
    let mut found = vec![false; symbols];
    for item in (0..items.count()).filter(|&item| set[item] != 0) {
        items.after[item].into_iter().for_each(|symbol| found[symbol] = true);
    }
    (1..symbols).filter(|&symbol| found[symbol]).collect()
}

/// The core of a set: its items without lookaheads.
fn core(set: &ItemSet) -> Vec<bool> {
    set.iter().map(|&lookaheads| lookaheads != 0).collect()
}

/// The canonical collection. Gives up beyond `bound` sets; more than 256
/// different cores make more than 256 states.
pub fn collection(
    grammar: &Grammar,
    items: &Items,
    close: Close,
    bound: usize,
) -> Result<Collection, Missing> {
    let symbols = grammar.card.symbols();
    let mut start = vec![0; items.count()];
    start[items.first[grammar.added()]] = 1;
    close(grammar, items, &mut start);
    let mut cores = Map::from_iter([(core(&start), ())]);
    let mut number_of = Map::from_iter([(start.clone(), 0)]);
    let mut all = Collection { sets: vec![start], next: Vec::new() };
    while all.next.len() < all.sets.len() {
        let set = all.sets[all.next.len()].clone();
        let mut row = vec![None; symbols];
        for symbol in after_dots(items, symbols, &set) {
            let Some(behind) = goto(grammar, items, close, &set, symbol) else {
                continue;
            };
            let fresh = all.sets.len();
            let found = *number_of.entry(behind.clone()).or_insert(fresh);
            if found == fresh {
                cores.insert(core(&behind), ());
                if cores.len() > MAX_STATES {
                    return Err(Missing::TooManyStates);
                }
                if fresh == bound {
                    return Err(Missing::GaveUp);
                }
                all.sets.push(behind);
            }
            row[symbol] = Some(found);
        }
        all.next.push(row);
    }
    Ok(all)
}

/// The LALR(1) automaton by its definition.
pub fn automaton(grammar: &Grammar, bound: usize) -> Result<Automaton, Missing> {
    let items = Items::new(grammar);
    let all = collection(grammar, &items, closure, bound)?;
    Ok(merged(grammar, &items, &all))
}

/// The last symbol of the paths to each group of sets, 0 for the group of the first
/// set, which no path but the empty one leads to.
pub fn last_symbols(all: &Collection, group_of: &[usize], groups: usize) -> Vec<usize> {
    let mut last = vec![None; groups];
    last[group_of[0]] = Some(0);
    for row in &all.next {
        for (symbol, to) in row.iter().enumerate() {
            if let Some(to) = to {
                let known = last[group_of[*to]].get_or_insert(symbol);
                assert_eq!(*known, symbol, "paths with different last symbols meet");
            }
        }
    }
    last.into_iter().map(|symbol| symbol.expect("a path to each group")).collect()
}

/// The sets with the same core replaced by their union, and numbered.
pub fn merged(grammar: &Grammar, items: &Items, all: &Collection) -> Automaton {
    // The group of a set: all sets with its core, merged to their union.
    let mut group_of_core = Map::default();
    let mut group_of = Vec::new();
    let mut unions: Vec<ItemSet> = Vec::new();
    for set in &all.sets {
        let fresh = unions.len();
        let group = *group_of_core.entry(core(set)).or_insert(fresh);
        if group == fresh {
            unions.push(set.clone());
        } else {
            for (joined, lookaheads) in unions[group].iter_mut().zip(set) {
                *joined |= lookaheads;
            }
        }
        group_of.push(group);
    }

    // All sets of a group go to sets of one group.
    let mut rows: Vec<Option<Vec<Option<usize>>>> = vec![None; unions.len()];
    for (set, row) in all.next.iter().enumerate() {
        let merged: Vec<_> = row.iter().map(|to| to.map(|to| group_of[to])).collect();
        match &rows[group_of[set]] {
            Some(known) => assert_eq!(known, &merged, "sets with one core go different ways"),
            None => rows[group_of[set]] = Some(merged),
        }
    }
    let rows: Vec<_> = rows.into_iter().flatten().collect();

    let symbols = grammar.card.symbols();
    let (order, next) = number(symbols, group_of[0], |group, symbol| rows[group][symbol]);
    let complete = order.iter().map(|&group| complete(items, &unions[group])).collect();
    let last = last_symbols(all, &group_of, unions.len());
    let entered = order.iter().map(|&group| last[group]).collect();
    Automaton { next, complete, entered }
}

/// The productions whose items with the dot at the right end are in a set.
pub fn complete(items: &Items, set: &ItemSet) -> Vec<(usize, Terminals)> {
    (0..items.count())
        .filter(|&item| set[item] != 0 && items.after[item].is_none())
        .map(|item| (items.at[item].0, set[item]))
        .collect()
}
