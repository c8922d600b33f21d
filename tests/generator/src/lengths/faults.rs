//! The lengths by rounds over the productions until nothing changes, with a fault on
//! demand. It is not part of the reference: it shows that faults are found, and it
//! stands in where no archive is linked.

use reference::card::{parse, Card, MAX_NONTERMINALS};
use reference::shortest::CAP;

/// What is wrong; `FAULTS` has the words.
#[derive(Clone, Copy, PartialEq, Eq)]
pub enum Fault {
    None,
    Bits(u32),
    Rounds(usize),
    LastTells,
    FirstKept,
    Longest,
    FirstProduction,
    FewestSymbols,
    NoLastProduction,
    NoEmpty,
    NoUnit,
    NoFirstSymbol,
    NoLastSymbol,
    EachOnce,
    Length8,
    TerminalsFree,
    StartTerminal,
    UnknownFree,
    EmptyOne,
    UnitOneMore,
    Cap(u16),
    CapEarly,
    NoCap,
    NoneZero,
    RestZero,
    RestKept,
    LastKept,
    Shifted,
    EightAsNine,
    WrittenFirst,
    CardWritten,
}

pub const FAULTS: [(&str, Fault); 34] = [
    ("sums that wrap at 16 bits", Fault::Bits(16)),
    ("sums that wrap at 32 bits", Fault::Bits(32)),
    ("sums that wrap at 64 bits", Fault::Bits(64)),
    ("one round only", Fault::Rounds(1)),
    ("59 rounds only", Fault::Rounds(59)),
    ("rounds until the last production changes nothing", Fault::LastTells),
    ("the first length found kept", Fault::FirstKept),
    ("the longest production taken", Fault::Longest),
    ("the first production taken", Fault::FirstProduction),
    ("the production of fewest symbols taken", Fault::FewestSymbols),
    ("the last production left out", Fault::NoLastProduction),
    ("empty right sides left out", Fault::NoEmpty),
    ("unit productions left out", Fault::NoUnit),
    ("the first symbol left out", Fault::NoFirstSymbol),
    ("the last symbol left out", Fault::NoLastSymbol),
    ("a symbol that comes again not counted", Fault::EachOnce),
    ("the number of symbols in 8 bits", Fault::Length8),
    ("terminals of length 0", Fault::TerminalsFree),
    ("the start counted as a terminal", Fault::StartTerminal),
    ("0 counted for what has no length yet", Fault::UnknownFree),
    ("an empty right side counted 1", Fault::EmptyOne),
    ("unit productions counted 1 more", Fault::UnitOneMore),
    ("65,534 as the cap", Fault::Cap(65_534)),
    ("32,767 as the cap", Fault::Cap(32_767)),
    ("65,535 for 65,534", Fault::CapEarly),
    ("no cap: the lower 16 bits", Fault::NoCap),
    ("0 for what derives no string of terminals", Fault::NoneZero),
    ("0 past the last nonterminal", Fault::RestZero),
    ("nothing written past the last nonterminal", Fault::RestKept),
    ("the last nonterminal's length not written", Fault::LastKept),
    ("each length one place further", Fault::Shifted),
    ("8 told as 9", Fault::EightAsNine),
    ("lengths written before the card is checked", Fault::WrittenFirst),
    ("the card written", Fault::CardWritten),
];

/// The card with what the fault leaves out of it.
fn lacking(mut card: Card, fault: Fault) -> Card {
    let (terminals, all) = (card.terminals, card.productions.clone());
    let sooner = |number: usize, left: usize| all[..number].iter().any(|(other, _)| *other == left);
    let fewest = |left: usize| all.iter().filter(|(l, _)| *l == left).map(|(_, r)| r.len()).min();
    let mut number = 0;
    card.productions.retain(|(left, right)| {
        number += 1;
        match fault {
            Fault::FirstProduction => !sooner(number - 1, *left),
            Fault::FewestSymbols => Some(right.len()) == fewest(*left),
            Fault::NoLastProduction => number < all.len(),
            Fault::NoEmpty => !right.is_empty(),
            Fault::NoUnit => right.len() != 1 || right[0] < terminals,
            _ => true,
        }
    });
    for (_, right) in &mut card.productions {
        match fault {
            Fault::NoFirstSymbol => *right = right.split_off(right.len().min(1)),
            Fault::NoLastSymbol => right.truncate(right.len().saturating_sub(1)),
            Fault::EachOnce => {
                right.sort_unstable();
                right.dedup();
            }
            Fault::Length8 => right.truncate(right.len() % 256),
            _ => {}
        }
    }
    card
}

/// The length of each symbol as far as it is known.
type Found = Vec<Option<u64>>;

/// The sum of a right side, if all of it is known.
fn sum(card: &Card, right: &[usize], found: &Found, fault: Fault) -> Option<u64> {
    let more = match right {
        [] => fault == Fault::EmptyOne,
        [symbol] => fault == Fault::UnitOneMore && !card.is_terminal(*symbol),
        _ => false,
    };
    let count = |symbol: usize| match fault {
        Fault::TerminalsFree if card.is_terminal(symbol) => Some(0),
        Fault::StartTerminal if symbol == card.start() => Some(1),
        Fault::UnknownFree => Some(found[symbol].unwrap_or(0)),
        _ => found[symbol],
    };
    let add = |one: u64, two: u64| match fault {
        Fault::Bits(bits) => one.wrapping_add(two) & (u64::MAX >> (64 - bits)),
        _ => one.saturating_add(two),
    };
    right.iter().try_fold(u64::from(more), |sum, &symbol| Some(add(sum, count(symbol)?)))
}

/// One production after the other; says whether a length changed.
fn round(card: &Card, found: &mut Found, fault: Fault) -> bool {
    let mut changed = false;
    for (left, right) in &card.productions {
        let new = sum(card, right, found, fault);
        let lessened = match found[*left] {
            None => new.is_some(),
            Some(_) if fault == Fault::FirstKept => false,
            Some(old) => new.is_some_and(|new| new < old),
        };
        if lessened {
            found[*left] = new;
        }
        changed = lessened || changed && fault != Fault::LastTells;
    }
    changed
}

fn rounds(card: &Card, fault: Fault) -> Found {
    let mut found: Found = (0..card.symbols()).map(|s| card.is_terminal(s).then_some(1)).collect();
    let mut left = if let Fault::Rounds(most) = fault { most } else { usize::MAX };
    while left > 0 && round(card, &mut found, fault) {
        left -= 1;
    }
    if fault == Fault::Longest {
        let right = found.clone();
        for (left, symbols) in &card.productions {
            found[*left] = found[*left].max(sum(card, symbols, &right, fault));
        }
    }
    found
}

/// What is answered for a length.
fn number(length: Option<u64>, fault: Fault) -> u16 {
    match (length, fault) {
        (None, Fault::NoneZero) => 0,
        (None, _) => CAP,
        (Some(65_534), Fault::CapEarly) => CAP,
        (Some(length), Fault::NoCap) => length as u16,
        (Some(length), Fault::Cap(cap)) => length.min(cap.into()) as u16,
        (Some(length), _) => length.min(CAP.into()) as u16,
    }
}

/// The C function, with a fault or with none.
pub fn shortest(numbers: &[u16], out: &mut [u16; MAX_NONTERMINALS], fault: Fault) -> u16 {
    let old = *out;
    if fault == Fault::WrittenFirst {
        out.fill(CAP);
    }
    let card = match parse(numbers) {
        Ok(card) => lacking(card, fault),
        Err(8) if fault == Fault::EightAsNine => return 9,
        Err(refusal) => return refusal as u16,
    };
    let n = card.nonterminals;
    out.fill(CAP);
    for (place, &length) in out.iter_mut().zip(&rounds(&card, fault)[card.terminals..]) {
        *place = number(length, fault);
    }
    match fault {
        Fault::RestZero => out[n..].fill(0),
        Fault::RestKept => out[n..].copy_from_slice(&old[n..]),
        Fault::LastKept => out[n - 1] = old[n - 1],
        Fault::Shifted => out.rotate_right(1),
        // SAFETY: none but that the card stands in memory that can be written.
        Fault::CardWritten => unsafe { numbers.as_ptr().cast_mut().write_volatile(!numbers[0]) },
        _ => {}
    }
    0
}

pub fn with(fault: Fault) -> impl Fn(&[u16], &mut [u16; MAX_NONTERMINALS]) -> u16 {
    move |numbers, out| shortest(numbers, out, fault)
}
