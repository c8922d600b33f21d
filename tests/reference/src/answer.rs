//! The answer: refusals 1 to 13 in their order, or the table; and what the
//! three areas hold afterwards.

use crate::automaton::{Automaton, Missing};
use crate::card::{parse, Card};
use crate::grammar::{useless, Grammar};
use crate::{lr0, lr1};

/// The lengths the areas must have at least, and over which they are cleared.
pub const TABLE_LENGTH: usize = 32_260;
pub const WORK_LENGTH: usize = 8_192;
pub const WORK2_LENGTH: usize = 16_384;

pub const MAX_TRANSITIONS: usize = 2_048;

pub const REDUCE: u16 = 1_024;
pub const ACCEPT: u16 = 4_096;

#[derive(Clone, Debug, PartialEq, Eq)]
pub enum Answer {
    Table(Vec<u16>),
    /// The number of the refusal and its values.
    Refused(u64, Vec<u64>),
}

impl Answer {
    /// The answer as the C boundary has it: 0 or the refusal, then its values.
    pub fn out(&self) -> [u64; 5] {
        let mut out = [0; 5];
        if let Answer::Refused(number, values) = self {
            out[0] = *number;
            out[1..1 + values.len()].copy_from_slice(values);
        }
        out
    }
}

/// How the automaton is found.
#[derive(Clone, Copy, Debug, PartialEq, Eq)]
pub enum Method {
    /// By the definition; gives up beyond so many sets.
    Canonical(usize),
    /// By spreading lookaheads over LR(0) sets.
    Spreading,
}

/// The grammar of a card, or one of the refusals 4 to 10.
pub fn grammar(numbers: &[u16]) -> Result<Grammar, Answer> {
    let card = parse(numbers).map_err(|number| Answer::Refused(number, vec![]))?;
    match useless(&card) {
        Some(nonterminal) => Err(Answer::Refused(10, vec![nonterminal as u64])),
        None => Ok(Grammar::new(card)),
    }
}

/// The answer for a card and areas that are long enough; nothing if the method
/// gave up.
pub fn answer(numbers: &[u16], method: Method) -> Option<Answer> {
    let grammar = match grammar(numbers) {
        Ok(grammar) => grammar,
        Err(refused) => return Some(refused),
    };
    let found = match method {
        Method::Canonical(bound) => lr1::automaton(&grammar, bound),
        Method::Spreading => lr0::automaton(&grammar),
    };
    match found {
        Ok(automaton) => Some(finish(&grammar, &automaton)),
        Err(Missing::TooManyStates) => Some(Answer::Refused(11, vec![])),
        Err(Missing::GaveUp) => None,
    }
}

/// An answer, and the ways by which it was found.
pub struct Found {
    pub answer: Answer,
    pub by_definition: bool,
    pub by_second_way: bool,
}

/// The answer by the definition if it takes at most `bound` LR(1) sets, else by
/// the second way; with `both` the two are compared where both run.
pub fn reference(numbers: &[u16], bound: usize, both: bool) -> Found {
    let first = answer(numbers, Method::Canonical(bound));
    let (by_definition, by_second_way) = (first.is_some(), first.is_none() || both);
    let second = if by_second_way { answer(numbers, Method::Spreading) } else { None };
    if by_definition && by_second_way {
        assert_eq!(first, second, "the two ways differ: {numbers:?}");
    }
    let answer = first.or(second).expect("the second way never gives up");
    Found { answer, by_definition, by_second_way }
}

/// Refusals 12 and 13, or the table.
pub fn finish(grammar: &Grammar, automaton: &Automaton) -> Answer {
    if automaton.nonterminal_transitions(grammar) > MAX_TRANSITIONS {
        return Answer::Refused(12, vec![]);
    }
    let card = &grammar.card;
    for state in 0..automaton.next.len() {
        for terminal in 0..card.terminals {
            let met = actions(grammar, automaton, state, terminal);
            if met.len() > 1 {
                let values = [state as u64, terminal as u64, met[0] as u64, met[1] as u64];
                return Answer::Refused(13, values.to_vec());
            }
        }
    }
    Answer::Table(table(card, automaton, |state, terminal| {
        actions(grammar, automaton, state, terminal).first().copied().unwrap_or(0)
    }))
}

/// The values that meet in a terminal's cell, ascending.
pub fn actions(
    grammar: &Grammar,
    automaton: &Automaton,
    state: usize,
    terminal: usize,
) -> Vec<u16> {
    let shift = automaton.next[state][terminal].map(|to| to as u16);
    let mut met: Vec<u16> = shift.into_iter().collect();
    for &(production, lookaheads) in &automaton.complete[state] {
        if lookaheads >> terminal & 1 == 1 {
            let accept = production == grammar.added();
            met.push(if accept { ACCEPT } else { REDUCE + production as u16 });
        }
    }
    met
}

/// The numbers of a table with the given cells in the columns of terminals.
pub fn table(card: &Card, automaton: &Automaton, cell: impl Fn(usize, usize) -> u16) -> Vec<u16> {
    let states = automaton.next.len();
    let sizes = [states, card.terminals, card.nonterminals, card.productions.len()];
    let mut numbers: Vec<u16> = sizes.iter().map(|&size| size as u16).collect();
    numbers.extend(card.productions.iter().map(|(left, _)| *left as u16));
    numbers.extend(card.productions.iter().map(|(_, right)| right.len() as u16));
    numbers.extend(automaton.entered.iter().map(|&symbol| symbol as u16));
    for state in 0..states {
        numbers.extend((0..card.terminals).map(|terminal| cell(state, terminal)));
        for nonterminal in card.terminals..card.symbols() {
            numbers.push(automaton.next[state][nonterminal].unwrap_or(0) as u16);
        }
    }
    numbers
}

/// Refusals 1 to 3.
pub fn short_area(table: usize, work: usize, work2: usize) -> Option<Answer> {
    let number = if table < TABLE_LENGTH {
        1
    } else if work < WORK_LENGTH {
        2
    } else if work2 < WORK2_LENGTH {
        3
    } else {
        return None;
    };
    Some(Answer::Refused(number, vec![]))
}

/// Leaves the areas as an answer leaves them.
pub fn leave(answer: &Answer, table: &mut [u16], work: &mut [u64], work2: &mut [u32]) {
    if matches!(answer, Answer::Refused(1..=10, _)) {
        return;
    }
    table[..TABLE_LENGTH].fill(0);
    work[..WORK_LENGTH].fill(0);
    work2[..WORK2_LENGTH].fill(0);
    if let Answer::Table(numbers) = answer {
        table[..numbers.len()].copy_from_slice(numbers);
    }
}

/// The generator's call, as the reference answers it.
pub fn generate(
    card: &[u16],
    table: &mut [u16],
    work: &mut [u64],
    work2: &mut [u32],
    of_card: impl Fn(&[u16]) -> Answer,
) -> [u64; 5] {
    let answer = short_area(table.len(), work.len(), work2.len()).unwrap_or_else(|| of_card(card));
    leave(&answer, table, work, work2);
    answer.out()
}
