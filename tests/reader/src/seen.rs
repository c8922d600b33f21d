// What the cases were: how often each answer came, and how often what only some readers get wrong.
use crate::cases::Case;
use crate::reference::{self, bad_closed, has, Outcome};
use std::collections::BTreeMap;

// What was counted, how often, and how often it must be.
type Counted = (&'static str, u64, u64);

#[derive(Default)]
pub struct Seen {
    // How often each number came.
    numbers: BTreeMap<u64, u64>,
    entered: Entered,
    limits: Limits,
    offers: Offers,
    second: Second,
    closed: Closed,
    // Limits that were made smaller, since a fresh reading had no end in sight.
    pub endless: u64,
}

impl Seen {
    // Counts a case with the answers of both calls, and the stack areas after them.
    pub fn count(&mut self, c: &Case, [o, choir]: &[Outcome; 2], [stack, choirs]: [&[u16]; 2]) {
        *self.numbers.entry(o.out[0]).or_insert(0) += 1;
        self.closed.count(c, o, choir, choirs);
        self.entered.count(c, o.out[0]);
        self.limits.count(c.limit, &o.out);
        self.offers.count(c, o, stack);
        self.second.count(c, o);
    }

    // Prints it; whether everything came often enough.
    pub fn enough(&self) -> bool {
        for (number, many) in &self.numbers {
            println!("{number:>3}: {many}");
        }
        let mut good = true;
        for number in [0].into_iter().chain(21..=27).chain(31..=35).chain(44..=46) {
            let least = if number == 25 { 10 } else { 100 };
            if self.numbers.get(&number).copied().unwrap_or(0) < least {
                println!("answer {number} came under {least} times");
                good = false;
            }
        }
        let endless: Counted = ("a fresh reading without an end in sight, limit lowered", self.endless, 100);
        let parts = [self.entered.all().to_vec(), self.limits.all().to_vec(), self.offers.all().to_vec()];
        let more = self.second.all().into_iter().chain(self.closed.all()).chain([endless]);
        for (what, many, least) in parts.concat().into_iter().chain(more) {
            let few = many < least;
            println!("{what}: {many}{}", if few { format!(", under {least} times") } else { String::new() });
            good &= !few;
        }
        good
    }
}

// How often the entering symbols of a table were bad, or odd and still good.
#[derive(Default)]
struct Entered {
    // 44 for one of its three reasons alone, and beside 24, 25, 26 and 27.
    alone: [u64; 3],
    beside: [u64; 4],
    // Tables taken where a state that no cell names has an entering symbol, and where it is T + N - 1.
    unnamed: u64,
    highest: u64,
    // Tables made without entering symbols: refused with 21, with 24, with 44, and taken.
    without: [u64; 4],
}

impl Entered {
    fn count(&mut self, c: &Case, answer: u64) {
        if c.without_entered {
            self.without[[21, 24, 44].iter().position(|&number| number == answer).unwrap_or(3)] += 1;
        }
        if answer == 24 {
            self.beside[0] += reference::entered_faults(&c.table).contains(&true) as u64;
        } else if answer == 44 {
            let faults = reference::entered_faults(&c.table);
            let terminals = c.table[1] as usize;
            let beside =
                [c.input.len() > 65535, c.input.iter().any(|&m| m == 0 || m as usize >= terminals), c.stack.is_empty()];
            for (way, alone) in self.alone.iter_mut().enumerate() {
                *alone += (faults[way] && faults.iter().filter(|&&fault| fault).count() == 1) as u64;
            }
            for (number, found) in self.beside[1..].iter_mut().zip(beside) {
                *number += found as u64;
            }
        } else if !(21..=23).contains(&answer) {
            let unnamed = reference::unnamed(&c.table);
            self.unnamed += unnamed.iter().any(|&symbol| symbol != 0) as u64;
            self.highest += unnamed.contains(&(c.table[1] + c.table[2] - 1)) as u64;
        }
    }

    fn all(&self) -> [Counted; 13] {
        let ([limit, zero, column], [cell, long, terminal, stack]) = (self.alone, self.beside);
        [
            ("44 for an entering symbol from T + N on alone", limit, 100),
            ("44 for state 0 alone", zero, 100),
            ("44 for a cell's column alone", column, 100),
            ("24 beside 44", cell, 100),
            ("44 beside 25", long, 10),
            ("44 beside 26", terminal, 100),
            ("44 beside 27", stack, 100),
            ("taken with an entering symbol of a state that no cell names", self.unnamed, 100),
            ("taken with T + N - 1 there", self.highest, 100),
            ("without entering symbols, refused with 21", self.without[0], 100),
            ("without entering symbols, refused with 24", self.without[1], 100),
            ("without entering symbols, refused with 44", self.without[2], 100),
            ("without entering symbols, but taken or refused otherwise", self.without[3], 10),
        ]
    }
}

// How often a limit of more than 32 bits allowed steps that a part of it would not.
#[derive(Default)]
struct Limits {
    // More steps than the lower half, than the upper half, and any under a limit that is negative as a signed number.
    lower: u64,
    upper: u64,
    signed: u64,
    // Any steps at 2^32 - 1, 2^32, 2^32 + 1 and 2^64 - 1.
    bounds: [u64; 4],
}

impl Limits {
    fn count(&mut self, limit: u64, out: &[u64; 7]) {
        let steps = out[1];
        if limit >> 32 != 0 {
            self.lower += (steps > limit % (1 << 32)) as u64;
            self.upper += (steps > limit >> 32) as u64;
            self.signed += (limit >> 63 == 1 && steps > 0) as u64;
        }
        let bounds = [(1 << 32) - 1, 1 << 32, (1 << 32) + 1, u64::MAX];
        for (many, bound) in self.bounds.iter_mut().zip(bounds) {
            *many += (limit == bound && steps > 0) as u64;
        }
    }

    fn all(&self) -> [Counted; 7] {
        [
            ("more steps than the lower half of a limit from 2^32 on", self.lower, 100),
            ("more steps than the upper half of a limit from 2^32 on", self.upper, 100),
            ("steps under a limit from 2^63 on", self.signed, 100),
            ("steps under the limit 2^32 - 1", self.bounds[0], 100),
            ("steps under the limit 2^32", self.bounds[1], 100),
            ("steps under the limit 2^32 + 1", self.bounds[2], 100),
            ("steps under the limit 2^64 - 1", self.bounds[3], 100),
        ]
    }
}

// How often 31 and 46 came in ways that wrong fresh readings answer otherwise.
#[derive(Default)]
struct Offers {
    // 46 by 32, 33 and 35, each alone.
    stopped: [u64; 3],
    // 31 with another set than the top row has; with none; with terminal 63.
    moved: u64,
    none: u64,
    last: u64,
    // 31 where a fresh reading made all steps that are allowed, more than are left, and more reductions than the list has
    // places.
    all_steps: u64,
    more_than_left: u64,
    past_list: u64,
    // 31 with over 65,535 steps and places of a fresh reading.
    many_steps: u64,
    many_places: u64,
}

impl Offers {
    fn count(&mut self, c: &Case, o: &Outcome, stack: &[u16]) {
        let alone = o.stopped.iter().filter(|&&stopped| stopped).count() == 1;
        for (many, stopped) in self.stopped.iter_mut().zip(o.stopped) {
            *many += (alone && stopped) as u64;
        }
        if o.out[0] != 31 {
            return;
        }
        let top = stack[o.out[2] as usize - 1];
        self.moved += (o.out[5] != reference::top_row(&c.table, top)) as u64;
        self.none += (o.out[5] == 0) as u64;
        self.last += o.out[5] >> 63;
        self.all_steps += (o.fresh_steps == c.limit) as u64;
        self.more_than_left += (o.fresh_steps > c.limit - o.out[1]) as u64;
        self.past_list += o.past_list as u64;
        self.many_steps += (o.fresh_steps > 65535) as u64;
        self.many_places += (o.fresh_high > 65535) as u64;
    }

    fn all(&self) -> [Counted; 11] {
        [
            ("46 by 32 alone", self.stopped[0], 100),
            ("46 by 33 alone", self.stopped[1], 100),
            ("46 by 35 alone", self.stopped[2], 100),
            ("31 with another set than the top row's", self.moved, 100),
            ("31 with an empty set", self.none, 100),
            ("31 with terminal 63", self.last, 100),
            ("31 where a fresh reading made all steps allowed", self.all_steps, 100),
            ("31 where a fresh reading made more steps than are left", self.more_than_left, 100),
            ("31 where a fresh reading reduced past the list", self.past_list, 100),
            ("31 with over 65535 steps in a fresh reading", self.many_steps, 10),
            ("31 with over 65535 places in a fresh reading", self.many_places, 10),
        ]
    }
}

// How often the second area's length mattered.
#[derive(Default)]
struct Second {
    // 45 for one place and for more; another refusal although the area is too short, 24, 44, 25 and 26.
    one: u64,
    more: u64,
    beside: [u64; 4],
    // An end with both areas as long; 31 where a fresh reading used more places than the stack has; 46 by 33 alone in an
    // area that is longer than the stack.
    equal: u64,
    past_stack: u64,
    full: u64,
}

impl Second {
    fn count(&mut self, c: &Case, o: &Outcome) {
        let (stack, second) = (c.stack.len(), c.second.len());
        let [number, end] = [o.out[0], (o.out[2] > 0) as u64];
        self.one += (number == 45 && second + 1 == stack) as u64;
        self.more += (number == 45 && second + 1 < stack) as u64;
        for (many, refusal) in self.beside.iter_mut().zip([24, 44, 25, 26]) {
            *many += (number == refusal && second < stack) as u64;
        }
        self.equal += end * (second == stack) as u64;
        self.past_stack += (number == 31 && o.fresh_high > stack) as u64;
        self.full += (o.stopped == [false, true, false] && second > stack) as u64;
    }

    fn all(&self) -> [Counted; 9] {
        [
            ("45 for one place", self.one, 100),
            ("45 for more places", self.more, 100),
            ("24 beside 45", self.beside[0], 100),
            ("44 beside 45", self.beside[1], 100),
            ("25 beside 45", self.beside[2], 10),
            ("26 beside 45", self.beside[3], 100),
            ("an end with both areas as long", self.equal, 100),
            ("31 where a fresh reading used more places than the stack has", self.past_stack, 100),
            ("46 by 33 alone in a second area longer than the stack", self.full, 100),
        ]
    }
}

// How often the choir's call met what only some readers of closed terminals get wrong.
#[derive(Default)]
struct Closed {
    // 50 for bit 0, for bit T, and for one behind it, each alone; for all 64 bits; with 64 terminals. Bit 63 taken.
    bits: [u64; 3],
    every: u64,
    wide: u64,
    last_bit: u64,
    // Another refusal although the word is bad: 24, 44, 25, 26, 27 and 45.
    beside: [u64; 6],
    without: Without,
    at: AtClosed,
    // Wrong before the first closed terminal, and stopped there by 32, 33, 34 and 35.
    before: [u64; 5],
}

// Inputs without closed terminals, by words that close some: accepted; 31 with fewer terminals than the publisher's; 31 for
// the publisher's 46; 46 for both.
#[derive(Default)]
struct Without {
    accepted: u64,
    narrowed: u64,
    relieved: u64,
    unknown: u64,
}

impl Without {
    fn count(&mut self, publisher: &Outcome, choir: &Outcome) {
        let numbers = [publisher.out[0], choir.out[0]];
        self.accepted += (numbers == [0, 0]) as u64;
        self.narrowed += (numbers == [31, 31] && choir.out[5] != publisher.out[5]) as u64;
        self.relieved += (numbers == [46, 31]) as u64;
        self.unknown += (numbers == [46, 46]) as u64;
    }

    fn all(&self) -> [Counted; 4] {
        [
            ("nothing closed in the input: accepted", self.accepted, 100),
            ("nothing closed in the input: a smaller set than the publisher's", self.narrowed, 100),
            ("nothing closed in the input: 31 for the publisher's 46", self.relieved, 100),
            ("nothing closed in the input: 46 for both", self.unknown, 100),
        ]
    }
}

// Ends at a closed terminal.
#[derive(Default)]
struct AtClosed {
    // It is the first, the last, or the last of 65,535 of the input.
    first: u64,
    last: u64,
    longest: u64,
    // No step, no place of the stack, or none of the list is left.
    limits: [u64; 3],
    // The publisher's reading goes on with a shift, with a reduction, or has no action for it.
    shifted: u64,
    reduced: u64,
    wrong: u64,
    // 46; 31 where the publisher's is 46 there; 31 with an empty set, with the end marker, and with others.
    unknown: u64,
    relieved: u64,
    sets: [u64; 3],
}

impl AtClosed {
    fn count(&mut self, c: &Case, publisher: &Outcome, choir: &Outcome, stack: &[u16]) {
        let [number, steps, depth, listed, position, set, _] = choir.out;
        self.first += (position == 0) as u64;
        self.last += (position + 1 == c.input.len() as u64) as u64;
        self.longest += (position == 65534) as u64;
        let left = [steps == c.limit, depth == c.stack.len() as u64, listed == c.list.len() as u64];
        self.limits.iter_mut().zip(left).for_each(|(many, none)| *many += none as u64);
        let action = reference::action(&c.table, stack[depth as usize - 1], c.input[position as usize]);
        let further = publisher.out[1] > steps;
        self.shifted += (further && action < 1024) as u64;
        self.reduced += (further && action >= 1024) as u64;
        self.wrong += (action == 0) as u64;
        let both = matches!(publisher.out[0], 31 | 46) && publisher.out[4] == position;
        self.unknown += (number == 46) as u64;
        self.relieved += (both && [publisher.out[0], number] == [46, 31]) as u64;
        let sets = [set == 0, set == 1, set > 1];
        self.sets.iter_mut().zip(sets).for_each(|(many, it)| *many += (number == 31 && it) as u64);
    }

    fn all(&self) -> [Counted; 14] {
        let ([left, room, listed], [empty, end, others]) = (self.limits, self.sets);
        [
            ("at a closed terminal, the first", self.first, 100),
            ("at a closed terminal, the last", self.last, 100),
            ("at a closed terminal, no step left", left, 100),
            ("at a closed terminal, no place of the stack left", room, 100),
            ("at a closed terminal, no place of the list left", listed, 100),
            ("at a closed terminal that the publisher's shifts", self.shifted, 100),
            ("at a closed terminal under which the publisher's reduces", self.reduced, 100),
            ("at a closed terminal for which the publisher's has no action", self.wrong, 100),
            ("at a closed terminal, 46", self.unknown, 100),
            ("at a closed terminal, 31 for the publisher's 46 there", self.relieved, 100),
            ("at a closed terminal, 31 with an empty set", empty, 100),
            ("at a closed terminal, 31 with the end marker alone", end, 100),
            ("at a closed terminal, 31 with others", others, 100),
            ("at a closed terminal, the last of 65535", self.longest, 10),
        ]
    }
}

impl Closed {
    fn refused(&mut self, c: &Case) {
        let (terminals, only) = (c.table[1] as u32, |bad: u64| c.closed & bad != 0);
        let from = |m: u32| u64::MAX.checked_shl(m).unwrap_or(0);
        let reasons = [1, from(terminals) & !from(terminals + 1), from(terminals + 1)].map(only);
        for (way, many) in self.bits.iter_mut().enumerate() {
            *many += (reasons[way] && reasons.iter().filter(|&&reason| reason).count() == 1) as u64;
        }
        self.every += (c.closed == u64::MAX) as u64;
        self.wide += (terminals == 64) as u64;
    }

    fn count(&mut self, c: &Case, publisher: &Outcome, choir: &Outcome, stack: &[u16]) {
        let number = choir.out[0];
        if number == 50 {
            self.refused(c);
            return;
        }
        if choir.out[2] == 0 {
            let bad = c.table.get(1).is_some_and(|&terminals| bad_closed(c.closed, terminals));
            for (many, refusal) in self.beside.iter_mut().zip([24, 44, 25, 26, 27, 45]) {
                *many += (bad && number == refusal) as u64;
            }
            return;
        }
        self.last_bit += c.closed >> 63;
        let Some(first) = c.input.iter().position(|&m| has(c.closed, m)) else {
            if c.closed != 0 {
                self.without.count(publisher, choir);
            }
            return;
        };
        match number {
            31 | 46 if choir.out[4] == first as u64 => self.at.count(c, publisher, choir, stack),
            31 | 46 => self.before[0] += 1,
            _ => self.before[number as usize - 31] += 1,
        }
    }

    fn all(&self) -> Vec<Counted> {
        let ([zero, t, above], [cell, entered, long, terminal, stack, second]) = (self.bits, self.beside);
        let [wrong, steps, place, list, broken] = self.before;
        let own = [
            ("50 for bit 0 alone", zero, 100),
            ("50 for bit T alone", t, 100),
            ("50 for bits behind T alone", above, 100),
            ("50 for all bits", self.every, 100),
            ("50 with 64 terminals", self.wide, 100),
            ("a word with bit 63 taken", self.last_bit, 100),
            ("24 beside 50", cell, 100),
            ("44 beside 50", entered, 100),
            ("25 beside 50", long, 10),
            ("26 beside 50", terminal, 100),
            ("27 beside 50", stack, 100),
            ("45 beside 50", second, 100),
            ("wrong before a closed terminal", wrong, 100),
            ("32 before a closed terminal", steps, 100),
            ("33 before a closed terminal", place, 100),
            ("34 before a closed terminal", list, 100),
            ("35 before a closed terminal", broken, 100),
        ];
        [&own[..], &self.without.all(), &self.at.all()].concat()
    }
}
