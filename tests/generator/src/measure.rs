//! Sizes of cards, the time the linked generator takes for them, and a search for
//! slower ones.

use std::time::Instant;

use reference::answer::{TABLE_LENGTH, WORK2_LENGTH, WORK_LENGTH};
use reference::card::parse;
use reference::grammar::Grammar;
use reference::lr0;
use reference::random::Random;

use crate::{abi, cards, relations};

struct Measured {
    name: String,
    sizes: [usize; 4],
    states: usize,
    transitions: usize,
    reads: usize,
    includes: usize,
    answer: u64,
    milliseconds: f64,
}

fn measure(name: &str, numbers: &[u16]) -> Measured {
    let mut table = vec![0; TABLE_LENGTH];
    let mut work = vec![0; WORK_LENGTH];
    let mut work2 = vec![0; WORK2_LENGTH];
    // The best of some runs, fewer for slow cards.
    let mut best = f64::INFINITY;
    let mut answer = 0;
    let begun = Instant::now();
    for _ in 0..5 {
        let one = Instant::now();
        answer = abi::generate(numbers, &mut table, &mut work, &mut work2)[0];
        best = best.min(one.elapsed().as_secs_f64() * 1e3);
        if begun.elapsed().as_secs_f64() > 0.5 {
            break;
        }
    }
    let grammar = Grammar::new(parse(numbers).expect("a card of the right form"));
    let (mut states, mut transitions, mut reads, mut includes) = (0, 0, 0, 0);
    if let Ok(automaton) = lr0::automaton(&grammar) {
        let found = relations::relations(&grammar, &automaton, relations::Fault::None);
        states = automaton.next.len();
        transitions = found.transitions.len();
        reads = found.reads.iter().map(Vec::len).sum();
        includes = found.includes.iter().map(Vec::len).sum();
    }
    Measured {
        name: name.into(),
        sizes: [0, 1, 2, 3].map(|at| numbers[at] as usize),
        states,
        transitions,
        reads,
        includes,
        answer,
        milliseconds: best,
    }
}

/// The cards of data files, with their names.
fn stored(paths: &[String]) -> Vec<(String, Vec<u16>)> {
    let mut found = Vec::new();
    for path in paths {
        let text = std::fs::read_to_string(path).unwrap_or_else(|e| panic!("{path}: {e}"));
        let mut name = "";
        for line in text.lines() {
            if let Some(rest) = line.strip_prefix("grammar ") {
                name = rest;
            } else if let Some(rest) = line.strip_prefix("card ") {
                let numbers = rest.split(' ').map(|n| n.parse().expect("a number"));
                found.push((name.to_string(), numbers.collect()));
            }
        }
    }
    found
}

/// Prints the sizes and times of the cards in data files, slowest last.
pub fn measure_files(paths: &[String]) -> bool {
    let mut all: Vec<Measured> =
        stored(paths).iter().map(|(name, numbers)| measure(name, numbers)).collect();
    all.sort_by(|a, b| a.milliseconds.total_cmp(&b.milliseconds));
    println!("generator: {}", abi::GENERATOR);
    println!("T/N/P/L, states, transitions, reads, includes, answer, milliseconds");
    for m in &all {
        let [t, n, p, l] = m.sizes;
        println!(
            "{:28} {t:2}/{n:2}/{p:3}/{l:3} {:3} {:4} {:5} {:5} {:2} {:9.3}",
            m.name, m.states, m.transitions, m.reads, m.includes, m.answer, m.milliseconds
        );
    }
    let total: f64 = all.iter().map(|m| m.milliseconds).sum();
    println!("{} cards, {total:.1} ms", all.len());
    !all.is_empty()
}

/// Changes cards of data files again and again and keeps what grows: `what` is
/// time, reads, includes or edges. Prints the cards found.
pub fn climb(random: &mut Random, seconds: u64, what: &str, paths: &[String]) -> bool {
    let value = |m: &Measured| match what {
        "time" => m.milliseconds,
        "reads" => m.reads as f64,
        "includes" => m.includes as f64,
        _ => (m.reads + m.includes) as f64,
    };
    let mut kept: Vec<(f64, Vec<u16>)> = stored(paths)
        .into_iter()
        .map(|(name, numbers)| (value(&measure(&name, &numbers)), numbers))
        .collect();
    kept.sort_by(|a, b| b.0.total_cmp(&a.0));
    kept.truncate(8);
    let begun = Instant::now();
    while begun.elapsed().as_secs() < seconds {
        let at = random.below(kept.len());
        let mut card = parse(&kept[at].1).expect("a card of the right form");
        for _ in 0..random.between(1, 3) {
            card = cards::changed(random, card);
        }
        let numbers = card.numbers();
        let usable = parse(&numbers).is_ok_and(|card| reference::grammar::useless(&card).is_none());
        if !usable {
            continue;
        }
        let measured = measure("changed", &numbers);
        // A slow run may be chance: the better of two.
        let grown = value(&measured).min(value(&measure("again", &numbers)));
        if measured.answer != 11 && measured.answer != 12 && grown > kept[at].0 {
            kept[at] = (grown, numbers);
        }
    }
    kept.sort_by(|a, b| b.0.total_cmp(&a.0));
    for (found, numbers) in &kept {
        let words: Vec<String> = numbers.iter().map(|n| n.to_string()).collect();
        println!("grammar {what}-{found}\ncard {}", words.join(" "));
    }
    true
}
