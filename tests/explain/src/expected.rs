//! What the tool must print for a text, from the reference.

use reference::answer::{actions, reference, Answer, ACCEPT, REDUCE};
use reference::automaton::Automaton;
use reference::card::parse;
use reference::grammar::Grammar;
use reference::items::Items;
use reference::lr1;
use std::fmt::Write;

/// LR(1) sets beyond which a conflict's items are not compared.
const BOUND: usize = 1_000;

pub struct Number {
    pub value: u16,
    line: usize,
    column: usize,
}

/// The numbers of a text, or the words for its first fault. Goes byte by byte.
pub fn numbers(text: &[u8]) -> Result<Vec<Number>, String> {
    let mut found: Vec<Number> = Vec::new();
    let (mut line, mut column) = (1, 1);
    let mut word: Vec<u8> = Vec::new();
    for &byte in text.iter().chain(b"\n") {
        if byte == b' ' || byte == b'\n' {
            if !word.is_empty() {
                let from = column - word.len();
                let mut value = Some(0u32);
                for &b in &word {
                    value =
                        value.filter(|_| (48..58).contains(&b)).map(|v| v * 10 + b as u32 - 48).filter(|&v| v < 65_536);
                }
                let Some(value) = value else {
                    let shown: String =
                        word.iter().take(16).map(|&b| if (33..127).contains(&b) { b as char } else { '?' }).collect();
                    let mut why = format!("Line {line}, column {from}: `{shown}` is no decimal number up to 65535.");
                    if let Some(b) = word.iter().find(|&&b| !(33..127).contains(&b)) {
                        write!(why, " It has the byte {b}; between numbers stand only blanks and line feeds.").unwrap();
                    }
                    return Err(why);
                };
                found.push(Number { value: value as u16, line, column: from });
                if found.len() == 773 {
                    return Err(format!("Line {line}, column {from}: this is number 773; a card has at most 772."));
                }
                word.clear();
            }
        } else {
            word.push(byte);
        }
        column += 1;
        if byte == b'\n' {
            line += 1;
            column = 1;
        }
    }
    Ok(found)
}

fn list(numbers: &[usize]) -> String {
    numbers.iter().map(usize::to_string).collect::<Vec<_>>().join(" ")
}

fn span(low: usize, high: usize) -> String {
    if low < high {
        format!("{low} to {high}")
    } else {
        format!("{low}")
    }
}

fn plural(n: usize, word: &str) -> String {
    format!("{n} {word}{}", if n == 1 { "" } else { "s" })
}

fn rule(left: &str, right: &[usize]) -> String {
    format!("{left} -> {}", if right.is_empty() { "(empty)".into() } else { list(right) })
}

/// The states' items with their lookaheads, as LR(1) sets that go to one state are united.
fn united(grammar: &Grammar, items: &Items, all: &lr1::Collection, automaton: &Automaton) -> Vec<lr1::ItemSet> {
    let mut state_of = vec![None; all.sets.len()];
    state_of[0] = Some(0);
    let mut waiting = vec![0];
    while let Some(set) = waiting.pop() {
        let state: usize = state_of[set].expect("a state");
        for symbol in 1..grammar.card.symbols() {
            if let Some(next) = all.next[set][symbol] {
                let to = automaton.next[state][symbol].expect("a transition");
                if state_of[next].is_none() {
                    state_of[next] = Some(to);
                    waiting.push(next);
                }
                assert_eq!(state_of[next], Some(to));
            }
        }
    }
    let mut out = vec![vec![0; items.count()]; automaton.next.len()];
    for (set, state) in all.sets.iter().zip(&state_of) {
        for (item, lookaheads) in set.iter().enumerate() {
            out[state.expect("a state")][item] |= lookaheads;
        }
    }
    out
}

/// How far each state is from the first.
fn distances(automaton: &Automaton) -> Vec<usize> {
    let mut far = vec![usize::MAX; automaton.next.len()];
    far[0] = 0;
    loop {
        let mut changed = false;
        for state in 0..far.len() {
            for &next in automaton.next[state].iter().flatten() {
                if far[state] != usize::MAX && far[next] > far[state] + 1 {
                    far[next] = far[state] + 1;
                    changed = true;
                }
            }
        }
        if !changed {
            return far;
        }
    }
}

/// Compares; gives the kind of answer: `not a card`, `table` or a refusal's number.
pub fn check(text: &[u8], out: &str, status: u8) -> Result<String, String> {
    let numbers = match numbers(text) {
        Ok(numbers) => numbers,
        Err(why) => {
            return same(out, status, &format!("not a card\n{why}\n"), 1).map(|()| "not a card".into());
        }
    };
    let values: Vec<u16> = numbers.iter().map(|number| number.value).collect();
    let all: Vec<usize> = values.iter().map(|&value| value as usize).collect();
    let place = |at: usize| format!("line {}, column {}", numbers[at].line, numbers[at].column);
    let answer = reference(&values, BOUND, false).answer;
    let mut want = String::new();

    // the sizes and productions
    let refusal = match &answer {
        Answer::Refused(number, _) => *number,
        Answer::Table(_) => 0,
    };
    let (t, n, p, l) = if refusal == 4 { (0, 0, 0, 0) } else { (all[0], all[1], all[2], all[3]) };
    if refusal != 4 {
        writeln!(want, "T {t}, N {n}, P {p}, L {l}").unwrap();
    }
    if refusal != 4 && refusal != 5 {
        want += "end marker 0";
        if t > 1 {
            write!(want, ", terminal{} {}", if t > 2 { "s" } else { "" }, span(1, t - 1)).unwrap();
        }
        write!(want, "; start {t}").unwrap();
        if n > 1 {
            write!(want, ", nonterminal{} {}", if n > 2 { "s" } else { "" }, span(t + 1, t + n - 1)).unwrap();
        }
        want += "\n";
        let mut at = 4 + 2 * p;
        for production in 0..p {
            let left = all.get(4 + production).map_or("?".into(), usize::to_string);
            let right = match all.get(4 + p + production) {
                None => "?".into(),
                Some(&length) => {
                    let from = at.min(all.len());
                    let to = (from + length).min(all.len());
                    at = from + length;
                    match (from + length > all.len(), to > from) {
                        (false, _) => rule("", &all[from..to])[4..].to_string(),
                        (true, false) => "?".into(),
                        (true, true) => format!("{} ?", list(&all[from..to])),
                    }
                }
            };
            writeln!(want, "production {production} : {left} -> {right}").unwrap();
        }
        if at < all.len() {
            writeln!(want, "behind the productions : {}", list(&all[at..])).unwrap();
        }
    }

    // the answer's line
    match &answer {
        Answer::Table(table) => writeln!(want, "table {} {t} {n} {p}", table[0]).unwrap(),
        Answer::Refused(number, values) => {
            let values: Vec<usize> = values.iter().map(|&v| v as usize).collect();
            let line = format!("refused {number} {}", list(&values));
            writeln!(want, "{}", line.trim_end()).unwrap();
        }
    }

    // its words
    match &answer {
        Answer::Table(table) => {
            let sizes = [(table[0] as usize, "state"), (t, "terminal"), (n, "nonterminal"), (p, "production")]
                .map(|(count, word)| plural(count, word));
            writeln!(want, "The maker makes a table: {}; {} numbers in all.", sizes.join(", "), table.len()).unwrap();
        }
        Answer::Refused(4, _) => {
            writeln!(want, "The input has {}; a card has at least 4: T N P L.", plural(all.len(), "number")).unwrap()
        }
        Answer::Refused(5, _) => {
            let mut wrong = Vec::new();
            for (name, size, low, high) in [("T", t, 1, 64), ("N", n, 1, 60), ("P", p, 1, 128), ("L", l, 0, 512)] {
                if size < low || size > high {
                    wrong.push(format!("{name} is {size}, and must be {low} to {high}."));
                }
            }
            writeln!(want, "{}", wrong.join(" ")).unwrap();
        }
        Answer::Refused(6, _) => {
            let (sum, found) = (4 + 2 * p + l, all.len());
            writeln!(want, "With P {p} and L {l} a card has 4 + 2 x {p} + {l} = {sum} numbers; this one has {found}.")
                .unwrap();
        }
        Answer::Refused(7, _) => {
            let at = (4..4 + p).find(|&at| all[at] < t || all[at] >= t + n).expect("a wrong left side");
            let (which, place, span) = (at - 4, place(at), span(t, t + n - 1));
            writeln!(
                want,
                "The left side of production {which} is {} ({place}); a left side is a nonterminal, {span}.",
                all[at]
            )
            .unwrap();
        }
        Answer::Refused(8, _) => {
            let passed = (0..p).find(|&at| all[4 + p..=4 + p + at].iter().sum::<usize>() > l);
            write!(want, "The lengths must add up to L, {l}; ").unwrap();
            match passed {
                Some(at) => {
                    let (sum, place) = (all[4 + p..=4 + p + at].iter().sum::<usize>(), place(4 + p + at));
                    writeln!(want, "with that of production {at}, {} ({place}), they come to {sum}.", all[4 + p + at])
                }
                None => writeln!(want, "they add up to {}.", all[4 + p..4 + 2 * p].iter().sum::<usize>()),
            }
            .unwrap();
        }
        Answer::Refused(9, _) => {
            let at = (4 + 2 * p..all.len()).find(|&at| all[at] == 0 || all[at] >= t + n).expect("a wrong symbol");
            let mut from = 4 + 2 * p;
            let mut production = 0;
            while at >= from + all[4 + p + production] {
                from += all[4 + p + production];
                production += 1;
            }
            writeln!(
                want,
                "Symbol {} of the right side of production {production} is {} ({}); a symbol is {}{}.",
                at + 1 - from,
                all[at],
                place(at),
                span(1, t + n - 1),
                if all[at] == 0 { ", and the end marker 0 stands in no right side" } else { "" }
            )
            .unwrap();
        }
        Answer::Refused(10, fault) => {
            let x = fault[0] as usize;
            let card = parse(&values).expect("a card");
            // reached: by steps from the start; productive: by the least number of rounds
            let mut reached = vec![t];
            let mut next = 0;
            while next < reached.len() {
                for (left, right) in &card.productions {
                    if *left == reached[next] {
                        for &symbol in right {
                            if !reached.contains(&symbol) {
                                reached.push(symbol);
                            }
                        }
                    }
                }
                next += 1;
            }
            let mut productive: Vec<usize> = (0..t).collect();
            while let Some((left, _)) = card
                .productions
                .iter()
                .find(|(left, right)| !productive.contains(left) && right.iter().all(|s| productive.contains(s)))
            {
                productive.push(*left);
            }
            let faults = match (reached.contains(&x), productive.contains(&x)) {
                (false, true) => "is not reached from the start",
                (true, false) => "derives no string of terminals",
                (false, false) => "is not reached from the start and derives no string of terminals",
                (true, true) => return Err("the reference refuses a useful nonterminal".into()),
            };
            let own = card.productions.iter().filter(|(left, _)| *left == x).count();
            let own = if own == 0 { "no production".into() } else { plural(own, "production") };
            writeln!(want, "Nonterminal {x} {faults}; it is the left side of {own}.").unwrap();
        }
        Answer::Refused(11, _) => want += "The grammar has more than 256 states.\n",
        Answer::Refused(12, _) => {
            let grammar = Grammar::new(parse(&values).expect("a card"));
            let automaton = reference::lr0::automaton(&grammar).expect("at most 256 states");
            let found = automaton.nonterminal_transitions(&grammar);
            writeln!(want, "The states have {found} transitions on nonterminals; the most is 2048.").unwrap();
        }
        Answer::Refused(13, fault) => {
            let [state, terminal] = [fault[0], fault[1]].map(|v| v as usize);
            let grammar = Grammar::new(parse(&values).expect("a card"));
            let items = Items::new(&grammar);
            let Ok(sets) = lr1::collection(&grammar, &items, lr1::closure, BOUND) else {
                return Ok("13, not compared".into());
            };
            let automaton = lr1::merged(&grammar, &items, &sets);
            let united = united(&grammar, &items, &sets, &automaton);
            let shown = |item: usize| {
                let (production, dot) = items.at[item];
                let left =
                    if production == grammar.added() { "start'".into() } else { all[4 + production].to_string() };
                let right = &grammar.rights[production];
                let line = format!("{left} -> {} . {}", list(&right[..dot]), list(&right[dot..]));
                line.replace("->  .", "-> .").trim_end().to_string()
            };
            let met = actions(&grammar, &automaton, state, terminal);
            let place =
                if terminal == 0 { "at the end of the input".into() } else { format!("before terminal {terminal}") };
            writeln!(want, "In state {state}, {place}, {} actions meet:", met.len()).unwrap();
            let held: Vec<usize> = (0..items.count()).filter(|&item| united[state][item] != 0).collect();
            for value in met {
                let what = if value == ACCEPT {
                    format!("accept, start' -> {t} .")
                } else if value >= REDUCE {
                    let production = (value - REDUCE) as usize;
                    let left = all[4 + production].to_string();
                    format!("reduce by production {production} : {}", rule(&left, &grammar.rights[production]))
                } else {
                    let by: Vec<String> =
                        held.iter().filter(|&&i| items.after[i] == Some(terminal)).map(|&i| shown(i)).collect();
                    format!("shift to state {value}, {}", by.join(" and "))
                };
                writeln!(want, "  {value}: {what}").unwrap();
            }
            // any of the shortest strings will do
            if state == 0 {
                writeln!(want, "State 0 is the first state. Its items:").unwrap();
            } else {
                let begin = format!("A shortest string of symbols that leads to state {state}: ");
                let line = out.lines().find(|line| line.starts_with(&begin)).ok_or(format!("no `{begin}`: {out}"))?;
                let path = line[begin.len()..].strip_suffix(". Its items:").ok_or(format!("{line}"))?;
                let mut at = 0;
                let symbols: Vec<usize> = path.split(' ').map(|s| s.parse().unwrap_or(0)).collect();
                for &symbol in &symbols {
                    let row = automaton.next[at].get(symbol);
                    at = row.copied().flatten().ok_or(format!("no transition on {symbol}: {line}"))?;
                }
                if at != state || symbols.len() != distances(&automaton)[state] {
                    return Err(format!("leads to {at} with {} symbols: {line}", symbols.len()));
                }
                writeln!(want, "{line}").unwrap();
            }
            for item in held {
                write!(want, "  {}", shown(item)).unwrap();
                if items.after[item].is_none() {
                    let ahead: Vec<usize> = (0..64).filter(|&m| united[state][item] >> m & 1 == 1).collect();
                    write!(want, " (lookahead {})", list(&ahead)).unwrap();
                }
                want += "\n";
            }
            let mut more = 0;
            for q in 0..automaton.next.len() {
                for m in 0..t {
                    let counted = actions(&grammar, &automaton, q, m).len() > 1 && (q, m) != (state, terminal);
                    more += counted as usize;
                }
            }
            match more {
                0 => want += "No other cell has a conflict.\n",
                1 => want += "1 more cell has a conflict.\n",
                _ => writeln!(want, "{more} more cells have conflicts.").unwrap(),
            }
        }
        Answer::Refused(number, _) => return Err(format!("the reference answers {number}")),
    }
    let (kind, wanted) = if refusal == 0 { ("table".into(), 0) } else { (refusal.to_string(), 1) };
    same(out, status, &want, wanted).map(|()| kind)
}

fn same(out: &str, status: u8, want: &str, wanted: u8) -> Result<(), String> {
    if out == want && status == wanted {
        return Ok(());
    }
    let mut pair = out.lines().map(Some).chain(std::iter::repeat(None)).zip(want.lines().map(Some).chain([None]));
    Err(format!("status {status}, expected {wanted}; first difference {:?}", pair.find(|(one, two)| one != two)))
}
