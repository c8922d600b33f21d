//! Generators that are wrong in the entering symbols, in their place in the table, or
//! in the length of the table area that they ask for.

use reference::answer::{finish, generate, leave, Answer, TABLE_LENGTH};
use reference::automaton::Automaton;
use reference::card::Card;

use crate::wrong::{by_areas, by_card, by_finish, right, sizes, Wrong};

/// Wrong in the entering symbols of the states.
fn by_entered(name: &'static str, change: fn(&Card, &mut Automaton)) -> Wrong {
    by_finish(name, move |grammar, mut found| {
        change(&grammar.card, &mut found);
        finish(grammar, &found)
    })
}

/// In place of each state's entering symbol the state that the first or the last
/// transition to it comes from, in the order of the rows.
fn sources(found: &mut Automaton, last: bool) {
    let mut source = vec![None; found.next.len()];
    for (state, row) in found.next.iter().enumerate() {
        for &to in row.iter().flatten() {
            if last || source[to].is_none() {
                source[to] = Some(state);
            }
        }
    }
    found.entered = source.into_iter().map(|state| state.unwrap_or(0)).collect();
}

/// The parts of a table's numbers in another order: sizes, left sides, lengths,
/// entering symbols and cells by their places 0 to 4.
fn by_parts(name: &'static str, order: &'static [usize]) -> Wrong {
    by_card(name, move |numbers| match right(numbers) {
        Answer::Table(table) => {
            let [q, _, _, p] = sizes(&table);
            let ends = [0, 4, 4 + p, 4 + 2 * p, 4 + 2 * p + q, table.len()];
            let part = |&at: &usize| &table[ends[at]..ends[at + 1]];
            Answer::Table(order.iter().flat_map(part).copied().collect())
        }
        other => other,
    })
}

/// The table area refused where it is shorter than `least`, whatever it must be.
fn table_area(name: &'static str, least: usize) -> Wrong {
    let generator = move |card: &[u16], t: &mut [u16], w: &mut [u64], v: &mut [u32]| {
        if t.len() < least {
            return Answer::Refused(1, vec![]).out();
        }
        let mut longer = t.to_vec();
        longer.resize(t.len().max(TABLE_LENGTH), 0);
        let out = generate(card, &mut longer, w, v, right);
        t.copy_from_slice(&longer[..t.len()]);
        out
    };
    Wrong { name, generator: Box::new(generator) }
}

/// The length of the table area without room for entering symbols.
const OLD_LENGTH: usize = TABLE_LENGTH - 256;

/// Right, but the last 256 places to be cleared are as they were.
fn cleared_short(answer: &Answer, t: &mut [u16], w: &mut [u64], v: &mut [u32]) {
    let kept = t.get(OLD_LENGTH..TABLE_LENGTH).map(<[u16]>::to_vec);
    leave(answer, t, w, v);
    if let Some(kept) = kept {
        t[OLD_LENGTH..TABLE_LENGTH].copy_from_slice(&kept);
    }
}

pub fn generators() -> Vec<Wrong> {
    vec![
        by_entered("entering symbols all 0", |_, found| found.entered.fill(0)),
        by_entered("an entering symbol for state 0", |card, found| found.entered[0] = card.start()),
        by_entered("the first state entered from, not the symbol", |_, found| {
            sources(found, false)
        }),
        by_entered("the last state entered from, not the symbol", |_, found| sources(found, true)),
        by_entered("entering nonterminals counted from 0", |card, found| {
            let entered = found.entered.iter_mut().filter(|symbol| !card.is_terminal(**symbol));
            entered.for_each(|symbol| *symbol -= card.terminals);
        }),
        by_entered("entering symbols one higher", |_, found| {
            found.entered.iter_mut().skip(1).for_each(|symbol| *symbol += 1);
        }),
        by_entered("entering terminals only", |card, found| {
            found.entered.iter_mut().for_each(|s| *s *= usize::from(card.is_terminal(*s)));
        }),
        by_entered("entering nonterminals only", |card, found| {
            found.entered.iter_mut().for_each(|s| *s *= usize::from(!card.is_terminal(*s)));
        }),
        by_entered("entering symbols of the next states", |_, found| found.entered.rotate_left(1)),
        by_entered("no entering symbol for the last state", |_, found| {
            found.entered.last_mut().into_iter().for_each(|symbol| *symbol = 0);
        }),
        by_entered("no entering symbol for state 255", |_, found| {
            found.entered.get_mut(255).into_iter().for_each(|symbol| *symbol = 0);
        }),
        by_parts("no entering symbols in the table", &[0, 1, 2, 4]),
        by_parts("entering symbols behind the cells", &[0, 1, 2, 4, 3]),
        by_parts("entering symbols before the lengths", &[0, 1, 3, 2, 4]),
        by_parts("entering symbols before the left sides", &[0, 3, 1, 2, 4]),
        by_areas("entering symbols not written", |answer, t, w, v| match answer {
            Answer::Table(numbers) => {
                let [q, _, _, p] = sizes(numbers);
                let places = 4 + 2 * p..4 + 2 * p + q;
                let old = t[places.clone()].to_vec();
                leave(answer, t, w, v);
                t[places].copy_from_slice(&old);
            }
            _ => leave(answer, t, w, v),
        }),
        table_area("table area of 32,259 taken", TABLE_LENGTH - 1),
        table_area("table area of 32,260 refused", TABLE_LENGTH + 1),
        table_area("table area of 32,004 taken", OLD_LENGTH),
        by_areas("32,004 places cleared after a table", |answer, t, w, v| match answer {
            Answer::Table(_) => cleared_short(answer, t, w, v),
            _ => leave(answer, t, w, v),
        }),
        by_areas("32,004 places cleared after 11 to 13", |answer, t, w, v| match answer {
            Answer::Refused(11..=13, _) => cleared_short(answer, t, w, v),
            _ => leave(answer, t, w, v),
        }),
    ]
}
