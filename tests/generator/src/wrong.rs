//! Generators that are wrong in one way each; the tests must find all of them.

use reference::answer::{
    actions, answer, finish, generate, grammar, leave, short_area, table, Answer, Method, ACCEPT,
    REDUCE, TABLE_LENGTH, WORK2_LENGTH, WORK_LENGTH,
};
use reference::automaton::{number, Automaton, Missing};
use reference::card::{parse, Card};
use reference::grammar::Grammar;
use reference::lr0;
use reference::shortest::{lengths, Length};

use crate::abi::Generator;
use crate::entered;
use crate::lookaheads::*;
use crate::pass;
use crate::relations::{self, Fault};

/// A wrong generator with its name.
pub struct Wrong {
    pub name: &'static str,
    pub generator: Box<Generator>,
}

pub fn right(card: &[u16]) -> Answer {
    answer(card, Method::Spreading).expect("this way never gives up")
}

/// Wrong in the answer for a card.
pub fn by_card(name: &'static str, of_card: impl Fn(&[u16]) -> Answer + 'static) -> Wrong {
    let generator = move |card: &[u16], t: &mut [u16], w: &mut [u64], v: &mut [u32]| {
        generate(card, t, w, v, &of_card)
    };
    Wrong { name, generator: Box::new(generator) }
}

/// Wrong behind refusal 10.
fn by_grammar(
    name: &'static str,
    of_grammar: impl Fn(&Grammar) -> Result<Answer, Missing> + 'static,
) -> Wrong {
    by_card(name, move |numbers| match grammar(numbers) {
        Err(refused) => refused,
        Ok(grammar) => of_grammar(&grammar).unwrap_or(Answer::Refused(11, vec![])),
    })
}

/// Wrong in the automaton.
fn by_automaton(
    name: &'static str,
    of_grammar: impl Fn(&Grammar) -> Result<Automaton, Missing> + 'static,
) -> Wrong {
    by_grammar(name, move |grammar| of_grammar(grammar).map(|found| finish(grammar, &found)))
}

/// Wrong in what is made of the automaton.
pub fn by_finish(
    name: &'static str,
    finish: impl Fn(&Grammar, Automaton) -> Answer + 'static,
) -> Wrong {
    by_grammar(name, move |grammar| lr0::automaton(grammar).map(|found| finish(grammar, found)))
}

/// Wrong in the areas left.
pub fn by_areas(
    name: &'static str,
    left: impl Fn(&Answer, &mut [u16], &mut [u64], &mut [u32]) + 'static,
) -> Wrong {
    let generator = move |card: &[u16], t: &mut [u16], w: &mut [u64], v: &mut [u32]| {
        let answer = short_area(t.len(), w.len(), v.len()).unwrap_or_else(|| right(card));
        left(&answer, t, w, v);
        answer.out()
    };
    Wrong { name, generator: Box::new(generator) }
}

/// Right, but the last number of the card is another afterwards.
fn card_written(name: &'static str) -> Wrong {
    let generator = |card: &[u16], t: &mut [u16], w: &mut [u64], v: &mut [u32]| {
        let out = generate(card, t, w, v, right);
        if let Some(last) = card.last() {
            // SAFETY: none but that the card stands in memory that can be written.
            unsafe { std::ptr::from_ref(last).cast_mut().write_volatile(!*last) };
        }
        out
    };
    Wrong { name, generator: Box::new(generator) }
}

/// The same automaton with other numbers for its states.
fn renumbered(found: &Automaton, order: &[usize]) -> Automaton {
    let symbols = order.len() + 1;
    let (states, next) = number(symbols, 0, |state, symbol| found.next[state][order[symbol - 1]]);
    let back = |row: &Vec<Option<usize>>| {
        let mut moved = vec![None; symbols];
        for (at, &symbol) in order.iter().enumerate() {
            moved[symbol] = row[at + 1];
        }
        moved
    };
    Automaton {
        next: next.iter().map(back).collect(),
        complete: states.iter().map(|&state| found.complete[state].clone()).collect(),
        entered: states.iter().map(|&state| found.entered[state]).collect(),
    }
}

/// Numbers given in depth.
fn in_depth(found: &Automaton) -> Automaton {
    fn visit(found: &Automaton, state: usize, order: &mut Vec<usize>) {
        if !order.contains(&state) {
            order.push(state);
            for &to in found.next[state].iter().flatten() {
                visit(found, to, order);
            }
        }
    }
    let mut order = Vec::new();
    visit(found, 0, &mut order);
    let number = |state: usize| order.iter().position(|&s| s == state).expect("a number");
    Automaton {
        next: order
            .iter()
            .map(|&state| found.next[state].iter().map(|to| to.map(number)).collect())
            .collect(),
        complete: order.iter().map(|&state| found.complete[state].clone()).collect(),
        entered: order.iter().map(|&state| found.entered[state]).collect(),
    }
}

/// A cell where actions meet: state, terminal and values.
type Meeting = (usize, usize, Vec<u16>);

fn meetings(grammar: &Grammar, found: &Automaton) -> Vec<Meeting> {
    let cells = (0..found.next.len())
        .flat_map(|state| (0..grammar.card.terminals).map(move |terminal| (state, terminal)));
    cells
        .map(|(state, terminal)| (state, terminal, actions(grammar, found, state, terminal)))
        .filter(|(_, _, met)| met.len() > 1)
        .collect()
}

/// Refusal 13 with another choice among the cells where actions meet.
fn conflict(name: &'static str, choose: fn(&mut Vec<Meeting>)) -> Wrong {
    by_finish(name, move |grammar, found| match finish(grammar, &found) {
        Answer::Refused(13, _) => {
            let mut met = meetings(grammar, &found);
            choose(&mut met);
            let (state, terminal, values) = &met[0];
            let values = [*state as u64, *terminal as u64, values[0] as u64, values[1] as u64];
            Answer::Refused(13, values.to_vec())
        }
        other => other,
    })
}

/// Conflicts settled silently by a choice among the values.
fn settled(name: &'static str, choose: fn(&[u16]) -> Option<u16>) -> Wrong {
    by_finish(name, move |grammar, found| {
        let answer = finish(grammar, &found);
        let chosen = |met: &[u16]| {
            if met.len() < 2 {
                met.first().copied()
            } else {
                choose(met)
            }
        };
        match answer {
            Answer::Refused(13, _)
                if meetings(grammar, &found).iter().all(|(_, _, met)| chosen(met).is_some()) =>
            {
                Answer::Table(table(&grammar.card, &found, |state, terminal| {
                    chosen(&actions(grammar, &found, state, terminal)).unwrap_or(0)
                }))
            }
            other => other,
        }
    })
}

/// The lookahead sets changed by a function.
fn lookaheads(name: &'static str, change: fn(&Grammar, usize, u64) -> u64) -> Wrong {
    by_automaton(name, move |grammar| {
        let mut found = lr0::automaton(grammar)?;
        for (production, set) in found.complete.iter_mut().flatten() {
            *set = change(grammar, *production, *set);
        }
        Ok(found)
    })
}

/// The card's checks with another order or another test.
fn checks(name: &'static str, check: impl Fn(&[u16], u64) -> u64 + 'static) -> Wrong {
    by_card(name, move |numbers| {
        let answer = right(numbers);
        let number = answer.out()[0];
        match check(numbers, number) {
            changed if changed == number => answer,
            changed => Answer::Refused(changed, vec![]),
        }
    })
}

/// Refusals 8 and 9 by one pass with a fault. A card taken that is to be refused
/// gets the answer 10.
fn by_pass(name: &'static str, fault: pass::Fault) -> Wrong {
    checks(name, move |numbers, number| match number {
        4..=7 => number,
        _ => match pass::refusal(numbers, fault) {
            0 if number == 8 || number == 9 => 10,
            0 => number,
            refusal => refusal,
        },
    })
}

pub fn sizes(numbers: &[u16]) -> [usize; 4] {
    [0, 1, 2, 3].map(|at| numbers[at] as usize)
}

/// The short way by relations, with a fault or with none.
pub fn by_relations(name: &'static str, fault: Fault) -> Wrong {
    by_automaton(name, move |grammar| relations::automaton(grammar, fault))
}

pub fn generators() -> Vec<Wrong> {
    let card_a = [
        4, 3, 1, 2, 3, 3, 2, 1, 0, 2, 3, 1, 0, 0, 1, 2, 1025, 1025, 0, 0, 4096, 3, 0, 0, 1024,
        1024, 0, 0,
    ];
    let mut all = vec![
        // Lookaheads.
        by_automaton("one follow set per nonterminal", follow_of_nonterminal),
        by_automaton("one follow set per state entered", follow_of_state),
        by_automaton("LR(1) states not merged", unmerged),
        by_automaton("items closed when they come only", closed_by(close_each_once)),
        by_automaton("items closed in one sweep", closed_by(close_in_one_sweep)),
        by_automaton("one nullable nonterminal passed only", closed_by(close_past_one)),
        by_automaton("no lookahead past nullable ones", closed_by(close_without_after)),
        by_automaton("lookahead always handed on", closed_by(close_with_after)),
        by_automaton("nothing nullable", |grammar| {
            let mut other = Grammar::new(grammar.card.clone());
            other.nullable.fill(false);
            lr0::automaton(&other)
        }),
        by_automaton("what derives one terminal taken as nullable", |grammar| {
            let mut other = Grammar::new(grammar.card.clone());
            let short = |length: &Option<Length>| length.is_some_and(|length| length <= 1);
            let from = grammar.card.terminals;
            other.nullable.truncate(from);
            other.nullable.extend(lengths(&grammar.card)[from..].iter().map(short));
            lr0::automaton(&other)
        }),
        lookaheads("bit 63 lost", |_, _, set| set & (u64::MAX >> 1)),
        lookaheads("bits from 32 on lost", |_, _, set| set & u64::from(u32::MAX)),
        lookaheads("all terminals for all reductions", |grammar, production, set| {
            if production == grammar.added() {
                set
            } else {
                u64::MAX
            }
        }),
        lookaheads("no end marker behind empty productions", |grammar, production, set| {
            if grammar.rights[production].is_empty() {
                set & !1
            } else {
                set
            }
        }),
        by_relations("reads left out", Fault::NoReads),
        by_relations("one step along reads", Fault::ReadsOnce),
        by_relations("includes left out", Fault::NoIncludes),
        by_relations("one step along includes", Fault::IncludesOnce),
        by_relations("includes only at the end", Fault::IncludesAtEnd),
        by_relations("includes whatever is behind", Fault::IncludesAlways),
        by_relations("cycles do not share a set", Fault::CyclesApart),
        by_relations("one transition looked back to", Fault::LookbackOnce),
        by_relations("no end marker behind the start", Fault::NoEnd),
        // States.
        by_automaton("symbols descending", |grammar| {
            let order: Vec<usize> = (1..grammar.card.symbols()).rev().collect();
            Ok(renumbered(&lr0::automaton(grammar)?, &order))
        }),
        by_automaton("nonterminals before terminals", |grammar| {
            let (t, all) = (grammar.card.terminals, grammar.card.symbols());
            let order: Vec<usize> = (t..all).chain(1..t).collect();
            Ok(renumbered(&lr0::automaton(grammar)?, &order))
        }),
        by_automaton("states numbered in depth", |grammar| Ok(in_depth(&lr0::automaton(grammar)?))),
        by_finish("255 states only", |grammar, found| {
            if found.next.len() > 255 {
                Answer::Refused(11, vec![])
            } else {
                finish(grammar, &found)
            }
        }),
        by_finish("2,047 transitions only", |grammar, found| {
            if found.nonterminal_transitions(grammar) > 2_047 {
                Answer::Refused(12, vec![])
            } else {
                finish(grammar, &found)
            }
        }),
        by_finish("2,049 transitions", |grammar, found| {
            if found.nonterminal_transitions(grammar) == 2_049 {
                Answer::Refused(13, vec![0; 4])
            } else {
                finish(grammar, &found)
            }
        }),
        by_finish("12 after 13", |grammar, found| match meetings(grammar, &found).first() {
            Some((state, terminal, met)) => {
                let values = [*state as u64, *terminal as u64, met[0] as u64, met[1] as u64];
                Answer::Refused(13, values.to_vec())
            }
            None => finish(grammar, &found),
        }),
        // Conflicts.
        conflict("13: lowest terminal first", |met| met.sort_by_key(|cell| (cell.1, cell.0))),
        conflict("13: highest state", |met| met.reverse()),
        conflict("13: highest values", |met| met.iter_mut().for_each(|cell| cell.2.reverse())),
        conflict("13: lowest and highest value", |met| {
            met.iter_mut().for_each(|cell| cell.2[1] = cell.2[cell.2.len() - 1]);
        }),
        conflict("13: not in column 0 first", |met| met.sort_by_key(|cell| (cell.0, cell.1 == 0))),
        settled("shift wins", |met| (met[0] < REDUCE).then_some(met[0])),
        settled("lower production wins", |met| {
            (met[0] >= REDUCE && !met.contains(&ACCEPT)).then_some(met[0])
        }),
        settled("accept wins", |met| met.contains(&ACCEPT).then_some(ACCEPT)),
        by_finish("default reductions", |grammar, mut found| {
            for (state, complete) in found.complete.iter_mut().enumerate() {
                if let [(production, set)] = &mut complete[..] {
                    let alone = found.next[state].iter().all(|to| to.is_none());
                    if alone && *production != grammar.added() {
                        *set = u64::MAX;
                    }
                }
            }
            finish(grammar, &found)
        }),
        card_written("the card written"),
        // Checks.
        by_pass("lengths added in 16 bits", pass::Fault::SumWraps),
        by_pass("lengths added up to L only", pass::Fault::SumStops),
        by_pass("lengths behind the right sum not added", pass::Fault::EndsEarly),
        by_pass("lengths that add up to less taken", pass::Fault::ShortSum),
        by_pass("9 before 8", pass::Fault::SymbolsFirst),
        by_pass("9 before 8 behind the sum", pass::Fault::RestFirst),
        by_pass("9: forgotten at the next production", pass::Fault::Forgotten),
        by_pass("8 and 9 without the last production", pass::Fault::NoLast),
        by_pass("9 without the last production", pass::Fault::NoLastSymbols),
        by_pass("9 without the first symbol of each production", pass::Fault::NoFirstSymbol),
        by_pass("9 without the last symbol of each production", pass::Fault::NoLastSymbol),
        by_pass("9 without the 512th symbol", pass::Fault::NoSymbol512),
        by_pass("symbol 0 taken", pass::Fault::Zero),
        by_pass("symbol T + N taken", pass::Fault::PastHighest),
        checks("8 before 7", |numbers, number| {
            if number != 7 {
                return number;
            }
            let [_, _, p, l] = sizes(numbers);
            let sum: usize = numbers[4 + p..4 + 2 * p].iter().map(|&n| n as usize).sum();
            if sum == l {
                7
            } else {
                8
            }
        }),
        checks("6 before 5", |numbers, number| {
            if number != 5 {
                return number;
            }
            let [_, _, p, l] = sizes(numbers);
            if numbers.len() == 4 + 2 * p + l {
                5
            } else {
                6
            }
        }),
        checks("longer cards accepted", |numbers, number| {
            if number != 6 {
                return number;
            }
            let [_, _, p, l] = sizes(numbers);
            if numbers.len() < 4 + 2 * p + l {
                6
            } else {
                10
            }
        }),
        checks(
            "L 0 refused",
            |numbers, number| {
                if number == 0 && numbers[3] == 0 {
                    5
                } else {
                    number
                }
            },
        ),
        checks(
            "T 1 refused",
            |numbers, number| {
                if number == 0 && numbers[0] == 1 {
                    5
                } else {
                    number
                }
            },
        ),
        checks(
            "T 64 refused",
            |numbers, number| {
                if number == 0 && numbers[0] == 64 {
                    5
                } else {
                    number
                }
            },
        ),
        checks("every card a conflict", |_, number| if number == 0 { 13 } else { number }),
        by_card("table A always", move |numbers| match right(numbers) {
            Answer::Table(_) => Answer::Table(card_a.to_vec()),
            other => other,
        }),
        // Useless nonterminals.
        useless_as("10: highest nonterminal", |card, _| {
            (card.terminals..card.symbols()).rev().find(|&s| is_useless(card, s))
        }),
        useless_as("10: not reached only", |card, lowest| {
            let reached = reached(card);
            (lowest..card.symbols()).find(|&s| !reached[s])
        }),
        useless_as("10: not productive only", |card, lowest| {
            let productive = productive(card);
            (lowest..card.symbols()).find(|&s| !productive[s])
        }),
        // Areas.
        by_areas("table area blank", |answer, t, w, v| {
            leave(answer, t, w, v);
            if matches!(answer, Answer::Table(_)) {
                t[..TABLE_LENGTH].fill(0);
            }
        }),
        by_areas("table area not cleared behind the table", |answer, t, w, v| match answer {
            Answer::Table(numbers) => {
                let rest = t[numbers.len()..].to_vec();
                leave(answer, t, w, v);
                t[numbers.len()..].copy_from_slice(&rest);
            }
            _ => leave(answer, t, w, v),
        }),
        by_areas("table area cleared too far", |answer, t, w, v| {
            leave(answer, t, w, v);
            if answer.out()[0] == 0 {
                t[TABLE_LENGTH..].fill(0);
            }
        }),
        by_areas("work area cleared too far", |answer, t, w, v| {
            leave(answer, t, w, v);
            if answer.out()[0] == 0 {
                w[WORK_LENGTH..].fill(0);
            }
        }),
        by_areas("second work area one place short", |answer, t, w, v| {
            let last = v.get(WORK2_LENGTH - 1).copied();
            leave(answer, t, w, v);
            if let Some(last) = last {
                v[WORK2_LENGTH - 1] = last;
            }
        }),
        by_areas("areas kept after 13", |answer, t, w, v| {
            if answer.out()[0] != 13 {
                leave(answer, t, w, v);
            }
        }),
        by_areas("areas kept after 11", |answer, t, w, v| {
            if answer.out()[0] != 11 {
                leave(answer, t, w, v);
            }
        }),
        by_areas("areas kept after 12", |answer, t, w, v| {
            if answer.out()[0] != 12 {
                leave(answer, t, w, v);
            }
        }),
        by_areas("areas cleared after 10", |answer, t, w, v| {
            leave(answer, t, w, v);
            if answer.out()[0] == 10 {
                t[..TABLE_LENGTH].fill(0);
            }
        }),
        by_areas("first place written before the checks", |answer, t, w, v| {
            leave(answer, t, w, v);
            if (4..10).contains(&answer.out()[0]) {
                v[0] = 0;
            }
        }),
    ];
    all.push(Wrong {
        name: "card before areas",
        generator: Box::new(|card, t, w, v| {
            let number = right(card).out()[0];
            if (4..10).contains(&number) {
                return [number, 0, 0, 0, 0];
            }
            generate(card, t, w, v, right)
        }),
    });
    all.push(Wrong {
        name: "work areas before the table area",
        generator: Box::new(|card, t, w, v| match short_area(TABLE_LENGTH, w.len(), v.len()) {
            Some(answer) => answer.out(),
            None => generate(card, t, w, v, right),
        }),
    });
    all.extend(entered::generators());
    all
}

/// Refusal 10 with another nonterminal, or without one the next answers.
fn useless_as(name: &'static str, choose: fn(&Card, usize) -> Option<usize>) -> Wrong {
    by_card(name, move |numbers| match right(numbers) {
        Answer::Refused(10, values) => {
            let card = parse(numbers).expect("a card that passed the checks");
            match choose(&card, values[0] as usize) {
                Some(other) => Answer::Refused(10, vec![other as u64]),
                None => Answer::Refused(13, vec![0; 4]),
            }
        }
        other => other,
    })
}

/// The nonterminal would be refused.
fn is_useless(card: &Card, symbol: usize) -> bool {
    !reached(card)[symbol] || !productive(card)[symbol]
}

fn reached(card: &Card) -> Vec<bool> {
    let mut known = vec![false; card.symbols()];
    known[card.start()] = true;
    for _ in 0..card.nonterminals {
        for (left, right) in &card.productions {
            if known[*left] {
                right.iter().for_each(|&s| known[s] = true);
            }
        }
    }
    known
}

fn productive(card: &Card) -> Vec<bool> {
    let mut known: Vec<bool> = (0..card.symbols()).map(|s| card.is_terminal(s)).collect();
    for _ in 0..card.nonterminals {
        for (left, right) in &card.productions {
            known[*left] |= right.iter().all(|&s| known[s]);
        }
    }
    known
}

/// Tables with a fault, to be found by parsing inputs alone.
pub fn tables() -> Vec<Wrong> {
    fn parts(
        name: &'static str,
        change: impl Fn(&Grammar, &mut [u16], &mut [u16]) + 'static,
    ) -> Wrong {
        by_card(name, move |numbers| match right(numbers) {
            Answer::Table(mut table) => {
                let grammar = Grammar::new(parse(numbers).expect("a card with a table"));
                let [q, _, _, p] = sizes(&table);
                let (entered, cells) = table[4 + 2 * p..].split_at_mut(q);
                change(&grammar, entered, cells);
                Answer::Table(table)
            }
            other => other,
        })
    }
    fn with(name: &'static str, change: impl Fn(&Grammar, &mut [u16]) + 'static) -> Wrong {
        parts(name, move |grammar, _, cells| change(grammar, cells))
    }
    vec![
        with("a shift is missing", |_, cells| {
            if let Some(cell) = cells.iter_mut().rev().find(|cell| (1..REDUCE).contains(*cell)) {
                *cell = 0;
            }
        }),
        with("a reduction is missing", |_, cells| {
            if let Some(cell) = cells.iter_mut().find(|cell| (REDUCE..ACCEPT).contains(*cell)) {
                *cell = 0;
            }
        }),
        with("a reduction by another production", |grammar, cells| {
            let last = REDUCE + grammar.added() as u16 - 1;
            if let Some(cell) = cells.iter_mut().find(|cell| (REDUCE..last).contains(*cell)) {
                *cell += 1;
            }
        }),
        with("accepts everywhere", |grammar, cells| {
            cells.chunks_mut(grammar.card.symbols()).for_each(|row| {
                if row[0] == 0 {
                    row[0] = ACCEPT;
                }
            });
        }),
        parts("an entering symbol for state 0", |grammar, entered, _| {
            entered[0] = grammar.card.start() as u16;
        }),
        parts("another entering symbol for the last state", |_, entered, _| {
            entered[entered.len() - 1] ^= 1;
        }),
    ]
}
