//! Two cards merged into one. The nonterminals of the merged card are names here, the new
//! start and those of each card; a name's number is its place in the list of all names.

use crate::card::{parse, Card};
use crate::grammar::useless;

/// The card that a refusal from 4 to 10 means.
#[derive(Clone, Copy, Debug, PartialEq, Eq)]
pub enum Which {
    First = 1,
    Second = 2,
    Merged = 3,
}

#[derive(Clone, Copy, Debug, PartialEq, Eq)]
pub enum Refusal {
    /// One of 4 to 10; with 10 the nonterminal by its number in that card, else 0.
    Card(Which, u64, u64),
    /// 53: the cards differ in T.
    Terminals,
    /// 54: the area is shorter than the merged card.
    Area,
}

/// The merged card, or why there is none.
pub type Merged = Result<Vec<u16>, Refusal>;

/// The answer as the C boundary has it: number, card, value.
pub fn out(merged: &Merged) -> [u64; 3] {
    match *merged {
        Ok(ref numbers) => [0, 0, numbers.len() as u64],
        Err(Refusal::Card(which, number, nonterminal)) => [number, which as u64, nonterminal],
        Err(Refusal::Terminals) => [53, 0, 0],
        Err(Refusal::Area) => [54, 0, 0],
    }
}

/// A symbol of the merged card.
#[derive(Clone, Copy, PartialEq, Eq)]
enum Symbol {
    Terminal(usize),
    Start,
    /// A nonterminal of one of the cards.
    Of(Which, usize),
}

/// A symbol of one of the cards.
fn symbol(card: &Card, which: Which, symbol: usize) -> Symbol {
    match card.is_terminal(symbol) {
        true => Symbol::Terminal(symbol),
        false => Symbol::Of(which, symbol),
    }
}

/// The names of both cards under a new start; `first` has the terminals of both.
fn joined(first: &Card, second: &Card) -> Card {
    let cards = [(Which::First, first), (Which::Second, second)];
    let mut names = vec![Symbol::Start];
    let mut productions = Vec::new();
    for (which, card) in cards {
        names.extend((card.terminals..card.symbols()).map(|s| symbol(card, which, s)));
        productions.push((Symbol::Start, vec![symbol(card, which, card.start())]));
    }
    for (which, card) in cards {
        productions.extend(card.productions.iter().map(|(left, right)| {
            let right = right.iter().map(|&s| symbol(card, which, s)).collect::<Vec<_>>();
            (symbol(card, which, *left), right)
        }));
    }
    let number = |symbol: &Symbol| match symbol {
        Symbol::Terminal(terminal) => *terminal,
        name => {
            let place = names.iter().position(|known| known == name);
            first.terminals + place.expect("a name of one of the cards")
        }
    };
    let numbered = |(left, right): &(Symbol, Vec<Symbol>)| {
        (number(left), right.iter().map(number).collect::<Vec<_>>())
    };
    Card {
        terminals: first.terminals,
        nonterminals: names.len(),
        productions: productions.iter().map(numbered).collect(),
    }
}

/// A card past 4 to 10.
fn checked(numbers: &[u16], which: Which) -> Result<Card, Refusal> {
    let card = parse(numbers).map_err(|number| Refusal::Card(which, number, 0))?;
    match useless(&card) {
        Some(nonterminal) => Err(Refusal::Card(which, 10, nonterminal as u64)),
        None => Ok(card),
    }
}

/// The card merged of two, in an area of so many places. It is checked as any card is,
/// so that its sizes get 5.
pub fn merge(first: &[u16], second: &[u16], room: usize) -> Merged {
    let first = checked(first, Which::First)?;
    let second = checked(second, Which::Second)?;
    if first.terminals != second.terminals {
        return Err(Refusal::Terminals);
    }
    let merged = joined(&first, &second).numbers();
    checked(&merged, Which::Merged)?;
    match room < merged.len() {
        true => Err(Refusal::Area),
        false => Ok(merged),
    }
}

/// The call, as the reference answers it.
pub fn call(first: &[u16], second: &[u16], area: &mut [u16]) -> [u64; 3] {
    let merged = merge(first, second, area.len());
    if let Ok(numbers) = &merged {
        area[..numbers.len()].copy_from_slice(numbers);
    }
    out(&merged)
}
