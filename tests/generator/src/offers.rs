//! Parsers that are right but for their expected sets, which come from fresh readings
//! that are wrong in one way each.

use reference::parser::parse;

use crate::abi::Parser;
use crate::readings::top_row;

/// Where a reading ended with 31 or 46.
pub struct Place<'a> {
    table: &'a [u16],
    input: &'a [u8],
    position: usize,
    /// The states on the stack.
    states: &'a [u16],
    steps: u64,
    limit: u64,
    /// Lengths of stack, list and second area.
    lengths: [usize; 3],
}

impl Place<'_> {
    fn before(&self) -> &[u8] {
        &self.input[..self.position]
    }

    /// A fresh reading at its beginning.
    fn fresh(&self) -> Fresh<'_> {
        let (states, limit, places) = (vec![0], self.limit, self.lengths[2]);
        Fresh { table: self.table, states, steps: 0, listed: 0, limit, places, list: usize::MAX }
    }

    fn last(&self) -> usize {
        self.table[1] as usize - 1
    }

    /// How the fresh reading for a terminal ends.
    pub fn end(&self, terminal: u8) -> u64 {
        self.fresh().line(self.before(), terminal)
    }
}

/// A fresh reading, with the steps it may make, the places it may use and the reductions
/// it may make.
struct Fresh<'a> {
    table: &'a [u16],
    states: Vec<u16>,
    steps: u64,
    listed: usize,
    limit: u64,
    places: usize,
    list: usize,
}

impl Fresh<'_> {
    fn cell(&self, state: u16, column: usize) -> u16 {
        let [q, t, n, p] = [0, 1, 2, 3].map(|at| self.table[at] as usize);
        self.table[4 + 2 * p + q + state as usize * (t + n) + column]
    }

    fn action(&self, terminal: u8) -> u16 {
        self.cell(self.states[self.states.len() - 1], terminal as usize)
    }

    /// Reads a terminal: 0 once it is shifted, or as end marker accepted, else the end.
    fn read(&mut self, terminal: u8) -> u64 {
        loop {
            let action = self.action(terminal);
            if action == 0 {
                return 31;
            }
            if self.steps == self.limit {
                return 32;
            }
            let end = match action {
                4096 => 0,
                1024.. => self.reduce(action as usize - 1024),
                _ if self.states.len() == self.places => 33,
                _ => {
                    self.states.push(action);
                    0
                }
            };
            if end != 0 {
                return end;
            }
            self.steps += 1;
            if !(1024..4096).contains(&action) {
                return 0;
            }
        }
    }

    fn reduce(&mut self, production: usize) -> u64 {
        let p = self.table[3] as usize;
        let (left, length) = (self.table[4 + production], self.table[4 + p + production]);
        if self.listed == self.list {
            return 34;
        }
        let Some(keep @ 1..) = self.states.len().checked_sub(length as usize) else { return 35 };
        let next = self.cell(self.states[keep - 1], left as usize);
        if next == 0 {
            return 35;
        }
        if keep == self.places {
            return 33;
        }
        self.states.truncate(keep);
        self.states.push(next);
        self.listed += 1;
        0
    }

    /// Reads terminals: 0 once all are shifted, else the end.
    fn all(&mut self, terminals: &[u8]) -> u64 {
        terminals.iter().map(|&m| self.read(m)).find(|&end| end != 0).unwrap_or(0)
    }

    /// Reads terminals, and then one more.
    fn line(&mut self, before: &[u8], terminal: u8) -> u64 {
        match self.all(before) {
            0 => self.read(terminal),
            end => end,
        }
    }
}

/// What is offered where the fresh reading for each terminal ends so.
pub fn offered(at: &Place, end: impl Fn(u8) -> u64) -> Option<u64> {
    let mut set = 0;
    for terminal in 0..=at.last() as u8 {
        match end(terminal) {
            0 => set |= 1 << terminal,
            31 => {}
            _ => return None,
        }
    }
    Some(set)
}

fn right(at: &Place) -> Option<u64> {
    offered(at, |m| at.end(m))
}

/// Fresh readings whose end is taken otherwise: by the reading, its terminal and its end.
fn taken(at: &Place, take: impl Fn(&Fresh, u8, u64) -> u64) -> Option<u64> {
    offered(at, |m| {
        let mut fresh = at.fresh();
        let end = fresh.line(at.before(), m);
        take(&fresh, m, end)
    })
}

/// As the parser, with another expected set; none for 46.
fn by_offer(offer: impl Fn(&Place) -> Option<u64> + 'static) -> Box<Parser> {
    Box::new(move |table, input, stack, list, second, limit| {
        let out = parse(table, input, stack, list, second, limit).out();
        let lengths = [stack.len(), list.len(), second.len()];
        with_offer(out, table, input, stack, (limit, lengths), &offer)
    })
}

/// An answer with another expected set, where it has one.
pub fn with_offer(
    mut out: [u64; 7],
    table: &[u16],
    input: &[u8],
    stack: &[u16],
    (limit, lengths): (u64, [usize; 3]),
    offer: impl Fn(&Place) -> Option<u64>,
) -> [u64; 7] {
    if out[0] != 31 && out[0] != 46 {
        return out;
    }
    let (position, states) = (out[4] as usize, &stack[..out[2] as usize]);
    let set = offer(&Place { table, input, position, states, steps: out[1], limit, lengths });
    out[0] = if set.is_some() { 31 } else { 46 };
    out[5] = set.unwrap_or(0);
    out[6] = u64::from(out[5].count_ones());
    out
}

/// Right, with the fresh readings of this file: what the others are made from.
pub fn base() -> Box<Parser> {
    by_offer(right)
}

/// The cells of the top row that are not 0.
fn top(at: &Place) -> Option<u64> {
    Some(top_row(at.table, at.states[at.states.len() - 1]))
}

/// Those of the row where the terminals before the position end.
fn before_reductions(at: &Place) -> Option<u64> {
    let mut fresh = at.fresh();
    fresh.all(at.before());
    Some(top_row(at.table, fresh.states[fresh.states.len() - 1]))
}

/// With the terminal met left in the line.
fn behind_met(at: &Place) -> Option<u64> {
    let line = &at.input[..at.input.len().min(at.position + 1)];
    offered(at, |m| at.fresh().line(line, m))
}

/// Not anew, but from the stack as it is.
fn from_stack(at: &Place) -> Option<u64> {
    offered(at, |m| {
        let mut fresh = at.fresh();
        fresh.states = at.states.to_vec();
        fresh.read(m)
    })
}

/// Only what makes a sentence of the line.
fn sentences(at: &Place) -> Option<u64> {
    offered(at, |m| {
        let mut fresh = at.fresh();
        match fresh.line(at.before(), m) {
            0 if m != 0 => fresh.read(0),
            end => end,
        }
    })
}

/// 0 where it has any action.
fn any_action(at: &Place) -> Option<u64> {
    offered(at, |m| {
        let mut fresh = at.fresh();
        fresh.all(at.before());
        if m == 0 && fresh.action(0) != 0 {
            return 0;
        }
        fresh.read(m)
    })
}

/// Not the highest terminal.
fn no_last(at: &Place) -> Option<u64> {
    right(at).map(|set| set & !(1 << at.last()))
}

/// The lowest alone.
fn lowest(at: &Place) -> Option<u64> {
    right(at).map(|set| set & set.wrapping_neg())
}

/// What was found, also where a reading stopped.
fn what_was_found(at: &Place) -> Option<u64> {
    taken(at, |_, _, end| if end == 0 { 0 } else { 31 })
}

/// Sets that are wrong also with steps and places enough: they are found without the
/// reference.
pub fn sets() -> Vec<(&'static str, Box<Parser>)> {
    vec![
        ("expected: the top row", by_offer(top)),
        ("expected: the row before the reductions", by_offer(before_reductions)),
        ("expected: behind the terminal met", by_offer(behind_met)),
        ("expected: read on from the stack as it is", by_offer(from_stack)),
        ("expected: only what ends a sentence", by_offer(sentences)),
        ("expected: 0 for any action", by_offer(any_action)),
        ("expected: nothing", by_offer(|_| Some(0))),
        ("expected: 0 never", by_offer(|at| right(at).map(|set| set & !1))),
        ("expected: terminal 1 left out", by_offer(|at| right(at).map(|set| set & !2))),
        ("expected: terminal 63 left out", by_offer(|at| right(at).map(|set| set << 1 >> 1))),
        ("expected: terminal T - 1 left out", by_offer(no_last)),
        ("expected: the lowest alone", by_offer(lowest)),
        ("expected: what was found in place of 46", by_offer(what_was_found)),
    ]
}

/// Fresh readings with a changed limit.
fn limited(change: fn(&Place, &mut Fresh)) -> impl Fn(&Place) -> Option<u64> {
    move |at| {
        offered(at, |m| {
            let mut fresh = at.fresh();
            change(at, &mut fresh);
            fresh.line(at.before(), m)
        })
    }
}

/// The acceptance without a step left.
fn free_acceptance(at: &Place) -> Option<u64> {
    taken(at, |fresh, m, end| if end == 32 && fresh.action(m) == 4096 { 0 } else { end })
}

/// The last shift without a step or place left.
fn free_shift(at: &Place) -> Option<u64> {
    taken(at, |fresh, m, end| match end {
        32 | 33 if m != 0 && fresh.action(m) < 1024 => 0,
        _ => end,
    })
}

/// 46 only where nothing is found.
fn found_or_unknown(at: &Place) -> Option<u64> {
    right(at).or(what_was_found(at).filter(|&set| set != 0))
}

/// 46 not where only the end marker's reading stops.
fn no_stop_for_end(at: &Place) -> Option<u64> {
    taken(at, |_, m, end| if m == 0 && end != 0 { 31 } else { end })
}

/// A stop that is taken for wrong.
fn no_stop(number: u64) -> impl Fn(&Place) -> Option<u64> {
    move |at| taken(at, |_, _, end| if end == number { 31 } else { end })
}

/// Fresh readings with other limits.
pub fn limits() -> Vec<(&'static str, Box<Parser>)> {
    let limit = |change| by_offer(limited(change));
    vec![
        ("fresh: the steps left", limit(|at, f| f.limit = at.limit - at.steps)),
        ("fresh: one step fewer", limit(|_, f| f.limit = f.limit.saturating_sub(1))),
        ("fresh: one step more", limit(|_, f| f.limit = f.limit.saturating_add(1))),
        ("fresh: limit modulo 2^32", limit(|_, f| f.limit &= u64::from(u32::MAX))),
        ("fresh: places of the stack", limit(|at, f| f.places = at.lengths[0])),
        ("fresh: one place fewer", limit(|_, f| f.places -= 1)),
        ("fresh: one place more", limit(|_, f| f.places += 1)),
        ("fresh: stopped by the list", limit(|at, f| f.list = at.lengths[1])),
        ("fresh: acceptance without a step left", by_offer(free_acceptance)),
        ("fresh: shift without a step or place left", by_offer(free_shift)),
        ("fresh: 32 is no 46", by_offer(no_stop(32))),
        ("fresh: 33 is no 46", by_offer(no_stop(33))),
        ("fresh: 46 only where nothing is found", by_offer(found_or_unknown)),
        ("fresh: 46 not for the end marker", by_offer(no_stop_for_end)),
    ]
}
