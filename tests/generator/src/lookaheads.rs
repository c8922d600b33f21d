//! Wrong ways to the lookaheads, each giving an automaton.

use std::collections::HashMap;

use reference::automaton::{Automaton, Missing};
use reference::grammar::Grammar;
use reference::items::Items;
use reference::{lr0, lr1};

/// One set of lookaheads for each nonterminal: FOLLOW.
pub fn follow_of_nonterminal(grammar: &Grammar) -> Result<Automaton, Missing> {
    let mut found = lr0::automaton(grammar)?;
    let mut follow = vec![0u64; grammar.card.symbols()];
    follow[grammar.card.start()] = 1;
    loop {
        let before = follow.clone();
        for (left, right) in &grammar.card.productions {
            for (at, &symbol) in right.iter().enumerate() {
                follow[symbol] |= grammar.first_of(&right[at + 1..], follow[*left]);
            }
        }
        if before == follow {
            break;
        }
    }
    for (production, lookaheads) in found.complete.iter_mut().flatten() {
        if let Some((left, _)) = grammar.card.productions.get(*production) {
            *lookaheads = follow[*left];
        }
    }
    Ok(found)
}

/// One set of lookaheads for each state entered by a nonterminal ("not quite").
pub fn follow_of_state(grammar: &Grammar) -> Result<Automaton, Missing> {
    let mut found = lr0::automaton(grammar)?;
    let card = &grammar.card;
    let next = found.next.clone();
    let walk = |from: usize, string: &[usize]| {
        string.iter().try_fold(from, |state, &symbol| next[state][symbol])
    };
    let mut follow = vec![0u64; next.len()];
    follow[next[0][card.start()].expect("the start's transition")] = 1;
    loop {
        let before = follow.clone();
        for (from, row) in next.iter().enumerate() {
            for (left, right) in &card.productions {
                let Some(end) = row[*left] else {
                    continue;
                };
                for (at, &symbol) in right.iter().enumerate() {
                    if !card.is_terminal(symbol) {
                        let entered = walk(from, &right[..=at]).expect("an item's transition");
                        follow[entered] |= grammar.first_of(&right[at + 1..], follow[end]);
                    }
                }
            }
        }
        if before == follow {
            break;
        }
    }
    let mut sets: HashMap<(usize, usize), u64> = HashMap::new();
    for (from, row) in next.iter().enumerate() {
        for (production, (left, right)) in card.productions.iter().enumerate() {
            if let Some(entered) = row[*left] {
                let state = walk(from, right).expect("an item's transition");
                *sets.entry((state, production)).or_default() |= follow[entered];
            }
        }
    }
    for (state, complete) in found.complete.iter_mut().enumerate() {
        for (production, lookaheads) in complete {
            if let Some(&set) = sets.get(&(state, *production)) {
                *lookaheads = set;
            }
        }
    }
    Ok(found)
}

/// LR(1) sets as states, not merged.
pub fn unmerged(grammar: &Grammar) -> Result<Automaton, Missing> {
    let items = Items::new(grammar);
    let all = lr1::collection(grammar, &items, lr1::closure, 256)?;
    let complete = all.sets.iter().map(|set| lr1::complete(&items, set)).collect();
    let groups: Vec<usize> = (0..all.sets.len()).collect();
    let entered = lr1::last_symbols(&all, &groups, groups.len());
    Ok(Automaton { next: all.next, complete, entered })
}

/// The definition with another closure.
pub fn closed_by(close: lr1::Close) -> impl Fn(&Grammar) -> Result<Automaton, Missing> {
    move |grammar| {
        let items = Items::new(grammar);
        let all = lr1::collection(grammar, &items, close, 600)?;
        Ok(lr1::merged(grammar, &items, &all))
    }
}

/// Each item is expanded when it comes, not when a lookahead arrives later.
pub fn close_each_once(grammar: &Grammar, items: &Items, set: &mut lr1::ItemSet) {
    let mut waiting: Vec<usize> = (0..items.count()).filter(|&i| set[i] != 0).collect();
    let mut at = 0;
    while at < waiting.len() {
        let item = waiting[at];
        at += 1;
        let Some(symbol) = items.after[item] else {
            continue;
        };
        if grammar.card.is_terminal(symbol) {
            continue;
        }
        let first = grammar.first_of(items.behind(grammar, item), set[item]);
        for &production in &grammar.of[symbol] {
            let target = items.first[production];
            if set[target] == 0 {
                waiting.push(target);
            }
            set[target] |= first;
        }
    }
}

/// All items are expanded once, in order.
pub fn close_in_one_sweep(grammar: &Grammar, items: &Items, set: &mut lr1::ItemSet) {
    for item in 0..items.count() {
        let Some(symbol) = items.after[item] else {
            continue;
        };
        if set[item] != 0 && !grammar.card.is_terminal(symbol) {
            let first = grammar.first_of(items.behind(grammar, item), set[item]);
            for &production in &grammar.of[symbol] {
                set[items.first[production]] |= first;
            }
        }
    }
}

/// The closure with another FIRST.
fn close_with(
    grammar: &Grammar,
    items: &Items,
    set: &mut lr1::ItemSet,
    first_of: impl Fn(&[usize], u64) -> u64,
) {
    loop {
        let before = set.clone();
        for item in 0..items.count() {
            let Some(symbol) = items.after[item] else {
                continue;
            };
            if set[item] == 0 || grammar.card.is_terminal(symbol) {
                continue;
            }
            let first = first_of(items.behind(grammar, item), set[item]);
            for &production in &grammar.of[symbol] {
                set[items.first[production]] |= first;
            }
        }
        if before == *set {
            return;
        }
    }
}

/// What is behind one nullable nonterminal is looked at, not behind two.
pub fn close_past_one(grammar: &Grammar, items: &Items, set: &mut lr1::ItemSet) {
    close_with(grammar, items, set, |string, after| match string {
        [] => after,
        [one] => grammar.first_of(&[*one], after),
        [one, two, ..] => grammar.first_of(&[*one], grammar.first[*two]),
    });
}

/// The lookahead itself is forgotten behind nullable nonterminals.
pub fn close_without_after(grammar: &Grammar, items: &Items, set: &mut lr1::ItemSet) {
    close_with(grammar, items, set, |string, after| match string {
        [] => after,
        _ => match grammar.first_of(string, 0) {
            0 => after,
            first => first,
        },
    });
}

/// The lookahead is always handed on.
pub fn close_with_after(grammar: &Grammar, items: &Items, set: &mut lr1::ItemSet) {
    close_with(grammar, items, set, |string, after| grammar.first_of(string, 0) | after);
}
