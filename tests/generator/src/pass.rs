//! One pass over the productions of a card, as a generator may find refusals 8 and
//! 9, with a fault on demand. It is not part of the reference: it shows that faults
//! in this way of working are found.

use reference::card::{parse, MAX_SYMBOLS};
use reference::random::Random;

use crate::cards::card;

#[derive(Clone, Copy, PartialEq, Eq)]
pub enum Fault {
    None,
    /// The sum of the lengths in 16 bits.
    SumWraps,
    /// A sum that stays at L where it would pass it.
    SumStops,
    /// The pass ends as soon as the sum is L.
    EndsEarly,
    /// Lengths refused only where the sum passes L.
    ShortSum,
    /// A bad symbol refused whatever the lengths add up to.
    SymbolsFirst,
    /// The same of a symbol behind the sum only.
    RestFirst,
    /// Only what was found in the last production is kept.
    Forgotten,
    /// The last production left out.
    NoLast,
    /// The symbols of the last production not looked at.
    NoLastSymbols,
    /// The first symbol of each production not looked at.
    NoFirstSymbol,
    /// The last symbol of each production not looked at.
    NoLastSymbol,
    /// The last place that a symbol can have is not looked at.
    NoSymbol512,
    /// Symbol 0 taken.
    Zero,
    /// Symbol T + N taken.
    PastHighest,
}

/// The first of so many random cards on which the pass without a fault finds
/// something other than the reference.
pub fn wrong_card(seed: u64, cards: u64) -> Option<Vec<u16>> {
    let mut random = Random::new(seed);
    (0..cards).map(|_| card(&mut random)).find(|numbers| match parse(numbers) {
        Err(4..=7) => false,
        other => refusal(numbers, Fault::None) != other.err().unwrap_or(0),
    })
}

/// Refusal 8 or 9, or 0, of a card that passed refusals 4 to 7.
pub fn refusal(numbers: &[u16], fault: Fault) -> u64 {
    let [t, n, p, l] = [0, 1, 2, 3].map(|at| numbers[at] as usize);
    let (lengths, symbols) = numbers[4 + p..].split_at(p);
    let lowest = if fault == Fault::Zero { 0 } else { 1 };
    let highest = if fault == Fault::PastHighest { t + n } else { t + n - 1 };
    let is_bad = |&symbol: &u16| !(lowest..=highest).contains(&(symbol as usize));
    let (mut sum, mut bad) = (0, false);
    for (production, &length) in lengths.iter().enumerate() {
        let last = production == p - 1;
        if last && fault == Fault::NoLast || sum == l && fault == Fault::EndsEarly {
            break;
        }
        let next = sum + length as usize;
        let right = &symbols[sum.min(l)..next.min(l)];
        let seen = match fault {
            Fault::NoLastSymbols if last => &[],
            Fault::NoFirstSymbol => right.get(1..).unwrap_or(&[]),
            Fault::NoLastSymbol => &right[..right.len().saturating_sub(1)],
            Fault::NoSymbol512 if sum < MAX_SYMBOLS && next >= MAX_SYMBOLS => {
                &right[..right.len().min(MAX_SYMBOLS - 1 - sum)]
            }
            _ => right,
        };
        bad &= fault != Fault::Forgotten;
        bad |= seen.iter().any(is_bad);
        sum = match fault {
            Fault::SumWraps => next % 65_536,
            Fault::SumStops => next.min(l),
            _ => next,
        };
    }
    let wrong_sum = if fault == Fault::ShortSum { sum > l } else { sum != l };
    match (wrong_sum, bad) {
        (true, true) if fault == Fault::SymbolsFirst => 9,
        (true, _) if fault == Fault::RestFirst && symbols[sum.min(l)..].iter().any(is_bad) => 9,
        (true, _) => 8,
        (false, true) => 9,
        (false, false) => 0,
    }
}
