//! The short way by relations of nonterminal transitions, with a fault on
//! demand. It is not part of the reference: it shows that faults in this way of
//! working are found, counts the relations of slow cards, and lends its steps to
//! the test of sums.

use std::collections::HashMap;
use std::ops::BitOr;

use reference::automaton::{Automaton, Missing};
use reference::grammar::Grammar;
use reference::lr0;

#[derive(Clone, Copy, PartialEq, Eq)]
pub enum Fault {
    None,
    /// The relation reads left out.
    NoReads,
    /// One step along reads only.
    ReadsOnce,
    /// The relation includes left out.
    NoIncludes,
    /// One step along includes only.
    IncludesOnce,
    /// Includes only where nothing stands behind the nonterminal.
    IncludesAtEnd,
    /// Includes whatever stands behind the nonterminal.
    IncludesAlways,
    /// One visit to each transition: those on a cycle do not share one set.
    CyclesApart,
    /// Only the first transition to look back to.
    LookbackOnce,
    /// The end marker is not read behind the start.
    NoEnd,
}

/// Relations of nonterminal transitions, by number.
pub struct Relations {
    pub transitions: Vec<(usize, usize)>,
    pub reads: Vec<Vec<usize>>,
    pub includes: Vec<Vec<usize>>,
}

fn walk(automaton: &Automaton, from: usize, string: &[usize]) -> usize {
    let go = |state: usize, &symbol: &usize| automaton.next[state][symbol].expect("a transition");
    string.iter().fold(from, go)
}

pub fn relations(grammar: &Grammar, automaton: &Automaton, fault: Fault) -> Relations {
    let card = &grammar.card;
    let nonterminals = card.terminals..card.symbols();
    let transitions: Vec<(usize, usize)> = (0..automaton.next.len())
        .flat_map(|state| nonterminals.clone().map(move |symbol| (state, symbol)))
        .filter(|&(state, symbol)| automaton.next[state][symbol].is_some())
        .collect();
    let number: HashMap<(usize, usize), usize> =
        transitions.iter().enumerate().map(|(number, &transition)| (transition, number)).collect();
    let reads = transitions
        .iter()
        .map(|&(state, symbol)| {
            let to = automaton.next[state][symbol].expect("a transition");
            let after = nonterminals.clone().filter(|&symbol| grammar.nullable[symbol]);
            after.filter_map(|symbol| number.get(&(to, symbol)).copied()).collect()
        })
        .collect();
    let mut includes = vec![Vec::new(); transitions.len()];
    for (target, &(state, left)) in transitions.iter().enumerate() {
        for &production in &grammar.of[left] {
            let right = &grammar.rights[production];
            for (at, &symbol) in right.iter().enumerate() {
                let behind = &right[at + 1..];
                let passes = match fault {
                    Fault::IncludesAtEnd => behind.is_empty(),
                    Fault::IncludesAlways => true,
                    _ => behind.iter().all(|&s| grammar.nullable[s]),
                };
                if passes && !card.is_terminal(symbol) {
                    let from = walk(automaton, state, &right[..at]);
                    includes[number[&(from, symbol)]].push(target);
                }
            }
        }
    }
    for related in &mut includes {
        related.sort_unstable();
        related.dedup();
    }
    Relations { transitions, reads, includes }
}

/// The sets the transitions start with: the terminals with a shift right behind
/// them, and the end marker behind the start.
pub fn direct_reads(
    grammar: &Grammar,
    automaton: &Automaton,
    transitions: &[(usize, usize)],
    fault: Fault,
) -> Vec<u64> {
    let card = &grammar.card;
    let start = |&(state, symbol): &(usize, usize)| {
        let shifts = &automaton.next[automaton.next[state][symbol].expect("a transition")];
        let end = u64::from((state, symbol) == (0, card.start()) && fault != Fault::NoEnd);
        let terminals = (1..card.terminals).filter(|&terminal| shifts[terminal].is_some());
        terminals.fold(end, |set, terminal| set | 1 << terminal)
    };
    transitions.iter().map(start).collect()
}

/// Joins to each set the sets of all related transitions, and of those again.
pub fn complete<S>(related: &[Vec<usize>], sets: &mut Vec<S>, once: bool, apart: bool)
where
    S: Copy + PartialEq + BitOr<Output = S>,
{
    fn visit<S>(at: usize, related: &[Vec<usize>], sets: &mut [S], seen: &mut [bool])
    where
        S: Copy + BitOr<Output = S>,
    {
        if !std::mem::replace(&mut seen[at], true) {
            for &to in &related[at] {
                visit(to, related, sets, seen);
                sets[at] = sets[at] | sets[to];
            }
        }
    }
    if apart {
        let mut seen = vec![false; sets.len()];
        (0..sets.len()).for_each(|at| visit(at, related, sets, &mut seen));
        return;
    }
    loop {
        let before = sets.clone();
        for (at, related) in related.iter().enumerate() {
            sets[at] = related.iter().fold(sets[at], |joined, &to| joined | before[to]);
        }
        if once || *sets == before {
            return;
        }
    }
}

/// Gives each complete production the sets of the transitions it looks back to.
pub fn look_back(
    grammar: &Grammar,
    automaton: &mut Automaton,
    transitions: &[(usize, usize)],
    sets: &[u64],
    fault: Fault,
) {
    let mut lookaheads: HashMap<(usize, usize), u64> = HashMap::new();
    for (number, &(state, symbol)) in transitions.iter().enumerate() {
        for &production in &grammar.of[symbol] {
            let end = walk(automaton, state, &grammar.rights[production]);
            let set = lookaheads.entry((end, production)).or_default();
            if *set == 0 || fault != Fault::LookbackOnce {
                *set |= sets[number];
            }
        }
    }
    for (state, complete) in automaton.complete.iter_mut().enumerate() {
        for (production, set) in complete.iter_mut().filter(|(p, _)| *p != grammar.added()) {
            *set = lookaheads[&(state, *production)];
        }
    }
}

pub fn automaton(grammar: &Grammar, fault: Fault) -> Result<Automaton, Missing> {
    let mut found = lr0::automaton(grammar)?;
    let Relations { transitions, reads, includes } = relations(grammar, &found, fault);
    let mut sets = direct_reads(grammar, &found, &transitions, fault);
    let apart = fault == Fault::CyclesApart;
    if fault != Fault::NoReads {
        complete(&reads, &mut sets, fault == Fault::ReadsOnce, apart);
    }
    if fault != Fault::NoIncludes {
        complete(&includes, &mut sets, fault == Fault::IncludesOnce, apart);
    }
    look_back(grammar, &mut found, &transitions, &sets, fault);
    Ok(found)
}
