//! Rightmost derivations, and sentences drawn at random.

use crate::grammar::Grammar;
use crate::random::Random;

/// From the start alone, each production in turn makes a step at the last
/// nonterminal of the string; after the last one the string is the input.
pub fn is_rightmost(
    grammar: &Grammar,
    productions: impl Iterator<Item = usize>,
    input: &[u8],
) -> bool {
    let mut string = vec![grammar.card.start()];
    // The terminals behind the last nonterminal, last one first.
    let mut behind: Vec<usize> = Vec::new();
    let mut settle = |string: &mut Vec<usize>| {
        while let Some(&last) = string.last() {
            if !grammar.card.is_terminal(last) {
                break;
            }
            behind.push(last);
            string.pop();
        }
        behind.len()
    };
    for production in productions {
        settle(&mut string);
        let Some((left, right)) = grammar.card.productions.get(production) else {
            return false;
        };
        if string.pop() != Some(*left) {
            return false;
        }
        string.extend(right);
    }
    settle(&mut string);
    string.is_empty() && behind.iter().rev().map(|&s| s as u8).eq(input.iter().copied())
}

/// For each nonterminal a production by which it comes to an end soonest.
pub struct Shortest(Vec<Option<usize>>);

impl Shortest {
    pub fn new(grammar: &Grammar) -> Shortest {
        let card = &grammar.card;
        let mut found: Vec<Option<usize>> = vec![None; card.symbols()];
        loop {
            let ends = |s: &usize| card.is_terminal(*s) || found[*s].is_some();
            let round: Vec<(usize, usize)> = card
                .productions
                .iter()
                .enumerate()
                .filter(|(_, (left, right))| found[*left].is_none() && right.iter().all(ends))
                .map(|(production, (left, _))| (*left, production))
                .collect();
            if round.is_empty() {
                return Shortest(found);
            }
            for (left, production) in round {
                found[left].get_or_insert(production);
            }
        }
    }
}

/// A random sentence of at most `longest` terminals, if one was found.
pub fn sentence(
    grammar: &Grammar,
    shortest: &Shortest,
    random: &mut Random,
    longest: usize,
) -> Option<Vec<u8>> {
    let free = 1 + random.below(40);
    let mut steps = 0;
    let mut string = vec![grammar.card.start()];
    let mut input = Vec::new();
    while let Some(symbol) = string.pop() {
        if grammar.card.is_terminal(symbol) {
            input.push(symbol as u8);
        } else {
            steps += 1;
            let production = if steps < free {
                grammar.of[symbol][random.below(grammar.of[symbol].len())]
            } else {
                shortest.0[symbol].expect("every nonterminal is productive")
            };
            string.extend(grammar.rights[production].iter().rev());
        }
        if input.len() > longest || string.len() > 1_000 || steps > 4_000 {
            return None;
        }
    }
    Some(input)
}
