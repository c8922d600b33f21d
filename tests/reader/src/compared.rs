// Both calls of a reader beside each other, without the reference: what the paper says of a choir's reading beside a
// publisher's, and the reading by the table with 0 in the closed columns.
use crate::cases::Case;
use crate::reference::{bad_closed, has};
use crate::Result;

fn wrong(r: &Result) -> bool {
    r.out[0] == 31 || r.out[0] == 46
}

fn is_end(r: &Result) -> bool {
    r.out[2] > 0
}

// The areas are as the case lends them.
fn kept(c: &Case, r: &Result) -> bool {
    r.stack == c.stack && r.list == c.list && r.second == c.second
}

// How many terminals were shifted: each step is a shift, lists a production, or accepts.
fn shifted(r: &Result) -> u64 {
    r.out[1].wrapping_sub(r.out[3]).wrapping_sub((r.out[0] == 0) as u64)
}

// A choir's expected set has no closed terminal, and its size.
fn set_without_closed(c: &Case, choir: &Result) -> bool {
    let [number, .., expected, size] = choir.out;
    expected & c.closed == 0 && size == expected.count_ones() as u64 && (number == 31 || expected == 0)
}

// "ends just as a publisher's does, apart from the offer and from a 46 that only a closed mark caused"
fn alike(c: &Case, publisher: &Result, choir: &Result) -> bool {
    let numbers = match publisher.out[0] {
        31 => choir.out[0] == 31 && choir.out[5] == publisher.out[5] & !c.closed,
        46 => wrong(choir),
        number => choir.out[0] == number,
    };
    numbers
        && choir.out[1..5] == publisher.out[1..5]
        && [&choir.stack, &choir.list] == [&publisher.stack, &publisher.list]
}

// What is wrong with an end of the choir's call.
fn ends(c: &Case, publisher: &Result, choir: &Result) -> Option<&'static str> {
    let first = c.input.iter().position(|&m| has(c.closed, m)).map(|at| at as u64);
    if choir.second.iter().any(|&place| place != 0) {
        return Some("the second area is not zero");
    }
    if c.closed == 0 && choir != publisher {
        return Some("another answer with word 0");
    }
    if !set_without_closed(c, choir) {
        return Some("a closed terminal in the expected set, or a wrong size");
    }
    if wrong(choir) && Some(choir.out[4]) == first {
        return (shifted(choir) != choir.out[4]).then_some("other shifts than terminals before the closed one");
    }
    if first.is_some_and(|first| shifted(choir) >= first) {
        return Some("a closed terminal passed, or stopped on otherwise");
    }
    (!alike(c, publisher, choir)).then_some("another end than the publisher's")
}

// How the choir's call is wrong beside the publisher's.
pub fn difference(c: &Case, publisher: &Result, choir: &Result) -> Option<String> {
    let refused = [50, 0, 0, 0, 0, 0, 0];
    let what = if !is_end(publisher) {
        (choir.out != publisher.out || !kept(c, choir)).then_some("another refusal, or an area changed")
    } else if bad_closed(c.closed, c.table[1]) {
        (choir.out != refused || !kept(c, choir)).then_some("no refusal of the word, or an area changed")
    } else if !is_end(choir) {
        Some("a word refused that is good")
    } else {
        ends(c, publisher, choir)
    };
    what.map(|what| format!("{what}: publisher's {:?}, choir's {:?}", publisher.out, choir.out))
}

// The case with 0 in the column of each closed terminal: by that table the publisher's call answers what the choir's does.
// None where one of them is refused.
pub fn masked(c: &Case, publisher: &Result, choir: &Result) -> Option<Case> {
    if c.closed == 0 || !is_end(publisher) || !is_end(choir) {
        return None;
    }
    let mut masked = c.clone();
    let [q, t, n, p] = [0, 1, 2, 3].map(|i| c.table[i] as usize);
    for row in masked.table[4 + 2 * p + q..].chunks_exact_mut(t + n).take(q) {
        (0..t as u8).filter(|&m| has(c.closed, m)).for_each(|m| row[m as usize] = 0);
    }
    Some(masked)
}
