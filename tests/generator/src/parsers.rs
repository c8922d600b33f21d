//! Parsers that are wrong in one way each; the tests must find all of them. What is wrong
//! in expected sets stands in `offers`.

use reference::parser::parse;

use crate::abi::Parser;

/// What a parser answers and leaves.
struct Left<'a> {
    out: &'a mut [u64; 7],
    stack: &'a mut [u16],
    list: &'a mut [u16],
    second: &'a mut [u16],
    /// The areas as they were.
    old: [&'a [u16]; 3],
}

impl Left<'_> {
    fn depth(&self) -> usize {
        self.out[2] as usize
    }

    fn listed(&self) -> usize {
        self.out[3] as usize
    }

    fn is_end(&self) -> bool {
        self.depth() > 0
    }
}

fn with(change: fn(&mut Left)) -> Box<Parser> {
    Box::new(move |table, input, stack, list, second, limit| {
        let old = [&*stack.to_vec(), &*list.to_vec(), &*second.to_vec()];
        let mut out = parse(table, input, stack, list, second, limit).out();
        change(&mut Left { out: &mut out, stack, list, second, old });
        out
    })
}

fn answer(change: fn(&mut [u64; 7])) -> Box<Parser> {
    Box::new(move |table, input, stack, list, second, limit| {
        let mut out = parse(table, input, stack, list, second, limit).out();
        change(&mut out);
        out
    })
}

/// Wrong in the seven numbers.
fn answers() -> Vec<(&'static str, Box<Parser>)> {
    vec![
        ("position one further", answer(|out| out[4] += u64::from(out[0] == 31))),
        ("step count with the end", answer(|out| out[1] += u64::from(out[0] == 31))),
        ("expected set with the terminal met", answer(|out| out[5] |= u64::from(out[0] == 31))),
        ("expected set counted wrong", answer(|out| out[6] += u64::from(out[0] == 31))),
        ("one place too many in use", answer(|out| out[2] += 1)),
        ("step count without accept", answer(|out| out[1] -= u64::from(out[0] == 0))),
        ("steps run out too soon", answer(|out| out[0] += 32 * u64::from(out[0] == 0))),
        ("accepts what ends early", answer(|out| out[0] *= u64::from(out[0] != 31))),
        ("46 told as 31", answer(|out| out[0] -= 15 * u64::from(out[0] == 46))),
        ("46 told as 32", answer(|out| out[0] -= 14 * u64::from(out[0] == 46))),
        ("46 without its position", answer(|out| out[4] *= u64::from(out[0] != 46))),
        ("46 without its steps", answer(|out| out[1] *= u64::from(out[0] != 46))),
        ("46 with one step more", answer(|out| out[1] += u64::from(out[0] == 46))),
        ("46 with an expected set", answer(|out| out[5] |= u64::from(out[0] == 46))),
        ("46 with a size", answer(|out| out[6] |= u64::from(out[0] == 46))),
        ("45 told as 27", answer(|out| out[0] -= 18 * u64::from(out[0] == 45))),
    ]
}

fn list_reversed(left: &mut Left) {
    let listed = left.listed();
    left.list[..listed].reverse();
}

fn popped_left(left: &mut Left) {
    let depth = left.depth();
    left.stack[depth..].copy_from_slice(&left.old[0][depth..]);
}

fn stack_cleared_behind(left: &mut Left) {
    let depth = left.depth();
    left.stack[depth..].fill(0);
}

fn other_states(left: &mut Left) {
    let depth = left.depth();
    left.stack[..depth].iter_mut().skip(1).for_each(|state| *state ^= 1);
}

fn list_cleared_behind(left: &mut Left) {
    let listed = left.listed();
    left.list[listed..].fill(0);
}

fn kept_where_it_ran_out(left: &mut Left) {
    if (32..=34).contains(&left.out[0]) {
        left.stack.copy_from_slice(left.old[0]);
        left.list.copy_from_slice(left.old[1]);
    }
}

fn written_before_checks(left: &mut Left) {
    if left.out[0] == 26 {
        left.stack.iter_mut().take(1).for_each(|state| *state = 0);
    }
}

fn unknown_cleared(left: &mut Left) {
    if left.out[0] == 46 {
        let depth = left.depth();
        left.stack[..depth].fill(0);
    }
}

/// Wrong in the places of stack and list.
fn areas() -> Vec<(&'static str, Box<Parser>)> {
    vec![
        ("list the other way round", with(list_reversed)),
        ("popped places as they were", with(popped_left)),
        ("stack cleared behind the places in use", with(stack_cleared_behind)),
        ("another state on the stack", with(other_states)),
        ("list cleared behind the productions listed", with(list_cleared_behind)),
        ("areas kept where the parser ran out", with(kept_where_it_ran_out)),
        ("first place written before the checks", with(written_before_checks)),
        ("46: the stack cleared", with(unknown_cleared)),
    ]
}

/// Leaves the second area as it was after some ends.
fn second_left(applies: fn(u64) -> bool) -> Box<Parser> {
    Box::new(move |table, input, stack, list, second, limit| {
        let old = second.to_vec();
        let out = parse(table, input, stack, list, second, limit).out();
        if out[2] > 0 && applies(out[0]) {
            second.copy_from_slice(&old);
        }
        out
    })
}

fn last_left(left: &mut Left) {
    if let (true, [.., place]) = (left.is_end(), &mut *left.second) {
        *place = *left.old[2].last().expect("as long");
    }
}

fn behind_left(left: &mut Left) {
    if left.is_end() {
        let least = left.stack.len();
        left.second[least..].copy_from_slice(&left.old[2][least..]);
    }
}

fn cleared_by_refusal(left: &mut Left) {
    if !left.is_end() {
        left.second.fill(0);
    }
}

fn state_left(left: &mut Left) {
    if left.is_end() {
        left.second[0] = 1;
    }
}

/// Wrong in the places of the second area.
fn second_area() -> Vec<(&'static str, Box<Parser>)> {
    vec![
        ("second area left", second_left(|_| true)),
        ("second area left where no fresh reading is", second_left(|end| end != 31 && end != 46)),
        ("second area left after 31", second_left(|end| end == 31)),
        ("second area left after 46", second_left(|end| end == 46)),
        ("second area left after acceptance", second_left(|end| end == 0)),
        ("second area: last place left", with(last_left)),
        ("second area: zero as far as the stack is long", with(behind_left)),
        ("second area: zero after a refusal", with(cleared_by_refusal)),
        ("second area: a state left at its bottom", with(state_left)),
    ]
}

/// Wrong in a limit.
fn limits() -> Vec<(&'static str, Box<Parser>)> {
    vec![
        (
            "stack one place short",
            Box::new(|table, input, stack, list, second, limit| {
                let used = stack.len().saturating_sub(1).max(stack.len().min(1));
                parse(table, input, &mut stack[..used], list, second, limit).out()
            }),
        ),
        (
            "list one place short",
            Box::new(|table, input, stack, list, second, limit| {
                let used = list.len().saturating_sub(1);
                parse(table, input, stack, &mut list[..used], second, limit).out()
            }),
        ),
        (
            "one step fewer",
            Box::new(|table, input, stack, list, second, limit| {
                parse(table, input, stack, list, second, limit.saturating_sub(1)).out()
            }),
        ),
        (
            "step limit modulo 2^32",
            Box::new(|table, input, stack, list, second, limit| {
                parse(table, input, stack, list, second, limit & u64::from(u32::MAX)).out()
            }),
        ),
        (
            "step limit as a signed number",
            Box::new(|table, input, stack, list, second, limit| {
                parse(table, input, stack, list, second, (limit as i64).max(0) as u64).out()
            }),
        ),
    ]
}

/// A refusal by 45, out of order.
const SECOND_SHORT: [u64; 7] = [45, 0, 0, 0, 0, 0, 0];

/// 45 where both areas are as long, after all other refusals.
fn equal_refused() -> Box<Parser> {
    Box::new(|table, input, stack, list, second, limit| {
        let equal = second.len() == stack.len() && !stack.is_empty();
        let [mut other, mut others] = [stack.to_vec(), second.to_vec()];
        match parse(table, input, &mut other, &mut [], &mut others, 0).number {
            0 | 31.. if equal => SECOND_SHORT,
            _ => parse(table, input, stack, list, second, limit).out(),
        }
    })
}

/// As with a second area of the stack's length, whatever its own is.
fn never_refused() -> Box<Parser> {
    Box::new(|table, input, stack, list, second, limit| {
        let mut longer = second.to_vec();
        longer.resize(second.len().max(stack.len()), 0);
        let out = parse(table, input, stack, list, &mut longer, limit).out();
        second.copy_from_slice(&longer[..second.len()]);
        out
    })
}

/// As with a stack one place shorter, where one place is missing.
fn one_missing_passes() -> Box<Parser> {
    Box::new(|table, input, stack, list, second, limit| {
        let one_missing = second.len() + 1 == stack.len() && !second.is_empty();
        let used = stack.len() - usize::from(one_missing);
        parse(table, input, &mut stack[..used], list, second, limit).out()
    })
}

fn refused_first() -> Box<Parser> {
    Box::new(|table, input, stack, list, second, limit| {
        if second.len() < stack.len() {
            return SECOND_SHORT;
        }
        parse(table, input, stack, list, second, limit).out()
    })
}

/// Wrong in when 45 comes.
fn second_short() -> Vec<(&'static str, Box<Parser>)> {
    vec![
        ("45 where both areas are as long", equal_refused()),
        ("45 never", never_refused()),
        ("45 only where two places are missing", one_missing_passes()),
        ("45 before 26", refused_first()),
    ]
}

/// Parsers with a fault.
pub fn parsers() -> Vec<(&'static str, Box<Parser>)> {
    [answers(), areas(), second_area(), limits(), second_short()].into_iter().flatten().collect()
}
