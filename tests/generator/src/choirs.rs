//! The choir's call, wrong in one way each; the tests must find all of them.

use reference::parser::{parse, parse_restricted};

use crate::abi::Choir;
use crate::offers::{offered, with_offer, Place};

/// Whether a terminal is closed.
fn has(closed: u64, terminal: u8) -> bool {
    closed.checked_shr(terminal.into()).unwrap_or(0) & 1 == 1
}

/// The first closed terminal of an input.
fn first(closed: u64, input: &[u8]) -> Option<usize> {
    input.iter().position(|&m| has(closed, m))
}

/// Whether an end is at a closed terminal.
fn at_closed(closed: u64, input: &[u8], out: &[u64; 7]) -> bool {
    (out[0] == 31 || out[0] == 46) && first(closed, input).is_some_and(|at| out[4] == at as u64)
}

/// With another answer: word, input, answer.
fn answer(change: fn(u64, &[u8], &mut [u64; 7])) -> Box<Choir> {
    Box::new(move |table, input, closed, stack, list, second, limit| {
        let mut out = parse_restricted(table, input, closed, stack, list, second, limit).out();
        change(closed, input, &mut out);
        out
    })
}

/// As with another word: number of terminals, word.
fn word(change: fn(usize, u64) -> u64) -> Box<Choir> {
    Box::new(move |table, input, closed, stack, list, second, limit| {
        let closed = change(table[1] as usize, closed);
        parse_restricted(table, input, closed, stack, list, second, limit).out()
    })
}

/// With the expected set where each fresh reading is taken so: whether the reading ended
/// at a closed terminal, whether the terminal is closed, the terminal, its end.
fn by_offer(take: fn(bool, bool, u8, u64) -> u64) -> Box<Choir> {
    Box::new(move |table, input, closed, stack, list, second, limit| {
        let out = parse_restricted(table, input, closed, stack, list, second, limit).out();
        let at = at_closed(closed, input, &out);
        let lengths = [stack.len(), list.len(), second.len()];
        with_offer(out, table, input, stack, (limit, lengths), |place: &Place| {
            offered(place, |m| take(at, has(closed, m), m, place.end(m)))
        })
    })
}

/// Right, with the fresh readings of `offers`: what the others are made from.
pub fn base() -> Box<Choir> {
    by_offer(|_, closed, _, end| if closed { 31 } else { end })
}

/// A good word is not looked at; the expected set has no closed terminals all the same.
fn publishers() -> Box<Choir> {
    Box::new(|table, input, closed, stack, list, second, limit| {
        let (s, l, v) = (&mut stack.to_vec(), &mut list.to_vec(), &mut second.to_vec());
        if parse_restricted(table, input, closed, s, l, v, limit).number == 50 {
            return parse_restricted(table, input, closed, stack, list, second, limit).out();
        }
        let mut out = parse(table, input, stack, list, second, limit).out();
        out[5] &= !closed;
        out[6] = u64::from(out[5].count_ones());
        out
    })
}

/// The input before the first closed terminal is taken for all of it.
fn cut() -> Box<Choir> {
    Box::new(|table, input, closed, stack, list, second, limit| {
        let before = &input[..first(closed, input).unwrap_or(input.len())];
        parse_restricted(table, before, closed, stack, list, second, limit).out()
    })
}

/// Reductions are made under a closed terminal: as the publisher's reads, up to a shift.
fn after_reductions() -> Box<Choir> {
    Box::new(|table, input, closed, stack, list, second, limit| {
        let old = (stack.to_vec(), list.to_vec(), second.to_vec());
        let mut out = parse_restricted(table, input, closed, stack, list, second, limit).out();
        if !at_closed(closed, input, &out) {
            return out;
        }
        // The publisher's with fewer and fewer steps, until it ends before the shift.
        for steps in (out[1]..=limit.min(out[1] + 1_000)).rev() {
            stack.copy_from_slice(&old.0);
            list.copy_from_slice(&old.1);
            second.copy_from_slice(&old.2);
            let made = parse(table, input, stack, list, second, steps).out();
            if made[1] - made[3] - u64::from(made[0] == 0) == out[4] {
                out[1..4].copy_from_slice(&made[1..4]);
                break;
            }
        }
        out
    })
}

/// The place behind a closed terminal is told.
fn one_further() -> Box<Choir> {
    answer(|closed, input, out| out[4] += u64::from(at_closed(closed, input, out)))
}

/// The first closed terminal is told, also behind a wrong one.
fn behind_wrong() -> Box<Choir> {
    answer(|closed, input, out| {
        if let (31 | 46, Some(at)) = (out[0], first(closed, input)) {
            out[4] = at as u64;
        }
    })
}

/// Wrong in what a closed terminal does to the reading, in the word or in its limits.
pub fn calls() -> Vec<(&'static str, Box<Choir>)> {
    vec![
        ("closed: word with bit 0 passes", word(|_, word| word & !1)),
        ("closed: word with bits from T on passes", word(|t, word| word & u64::MAX >> (64 - t))),
        ("closed: 50 told as 26", answer(|_, _, out| out[0] -= 24 * u64::from(out[0] == 50))),
        ("closed: reductions under it", after_reductions()),
        (
            "closed: 32 where no step is left",
            Box::new(|table, input, closed, stack, list, second, limit| {
                let mut out =
                    parse_restricted(table, input, closed, stack, list, second, limit).out();
                if at_closed(closed, input, &out) && out[1] == limit {
                    out = [32, out[1], out[2], out[3], 0, 0, 0];
                }
                out
            }),
        ),
        (
            "closed: makes 46",
            by_offer(|_, closed, _, end| if closed && (end == 0 || end == 31) { 31 } else { end }),
        ),
        (
            "closed: second area left",
            Box::new(|table, input, closed, stack, list, second, limit| {
                let old = second.to_vec();
                let out = parse_restricted(table, input, closed, stack, list, second, limit).out();
                if at_closed(closed, input, &out) {
                    second.copy_from_slice(&old);
                }
                out
            }),
        ),
    ]
}

/// Wrong also with steps and places enough: they are found without the reference.
pub fn sets() -> Vec<(&'static str, Box<Choir>)> {
    vec![
        ("closed: read as a publisher", publishers()),
        ("closed: taken for the end", cut()),
        ("closed: position one further", one_further()),
        ("closed: named behind a wrong terminal", behind_wrong()),
        ("closed: terminal T - 1 never closed", word(|t, word| word & !(1 << (t - 1)))),
        ("closed: in the expected set", by_offer(|_, _, _, end| end)),
        (
            "closed: in the expected set there",
            by_offer(|at, closed, _, end| if closed && !at { 31 } else { end }),
        ),
        (
            "closed: in the expected set elsewhere",
            by_offer(|at, closed, _, end| if closed && at { 31 } else { end }),
        ),
        (
            "closed: nothing expected there",
            by_offer(|at, closed, _, end| if closed || at && end == 0 { 31 } else { end }),
        ),
        (
            "closed: 0 not expected there",
            by_offer(
                |at, closed, m, end| if closed || at && m == 0 && end == 0 { 31 } else { end },
            ),
        ),
    ]
}
