//! The tool explain against the reference: each line that it prints for a card, on random cards and texts.
//!
//!     explain-tests FILE..    compares, on stored cards of the files too, then requires that each planted fault is found
//!
//! SEED and CARDS set the seed and the number of cards.

#[allow(dead_code)]
#[path = "../../generator/src/cards.rs"]
mod cards;
mod expected;
mod wrong {
    include!(concat!(env!("OUT_DIR"), "/wrong.rs"));
}

use reference::random::Random;
use sidumza::generator::{table_of, Refusal};
use std::collections::BTreeMap;
use std::process::ExitCode;

type Maker<'a> = &'a dyn Fn(&[u16]) -> Result<Vec<u16>, Refusal>;
type Explain = fn(&[u8], Maker) -> (String, u8);

fn tool(text: &[u8], maker: Maker) -> (String, u8) {
    let told = explain::explain(text, maker);
    (told.text, told.status)
}

/// A card as text: numbers with blanks and line feeds, some with leading zeros, and now and then a change.
fn text(random: &mut Random) -> Vec<u8> {
    let mut out = Vec::new();
    if random.chance(1) {
        let many = random.between(770, 775);
        out.extend("1 ".repeat(many).bytes());
        return out;
    }
    for number in cards::card(random) {
        if random.chance(2) {
            out.extend(random.pick(&["0", "00", " ", "\n", "\n\n  "]).bytes());
        }
        out.extend(number.to_string().bytes());
        out.extend(random.pick(&[" ", " ", " ", "\n", "  "]).bytes());
    }
    if random.chance(4) && !out.is_empty() {
        let at = random.below(out.len() + 1);
        let pieces: &[&[u8]] = &[
            b"x",
            b"\t",
            b"\r",
            b"65536",
            b" 65535 ",
            b"99999999999999999999999",
            b"\xff",
            b"-",
            b"+",
            b" 000 ",
            b"\0",
        ];
        out.splice(at..at, random.pick(pieces).iter().copied());
    }
    out
}

/// Makers that answer something else: the tool prints what they say, and that it does not find the same.
fn lies(run: Explain, text: &[u8]) -> Result<(), String> {
    let Ok(numbers) = expected::numbers(text) else { return Ok(()) };
    let truth = table_of(&numbers.iter().map(|number| number.value).collect::<Vec<_>>());
    let conflict = Refusal::Conflict { state: 7, terminal: 1, lower: 3, higher: 1030 };
    let table = vec![4, 3, 1, 2, 3, 3];
    for (lie, line) in [
        (Err(Refusal::CardShort), "refused 4"),
        (Err(Refusal::CardSizes), "refused 5"),
        (Err(Refusal::CardLength), "refused 6"),
        (Err(Refusal::LeftSide), "refused 7"),
        (Err(Refusal::Lengths), "refused 8"),
        (Err(Refusal::Symbol), "refused 9"),
        (Err(Refusal::Useless { nonterminal: 1 }), "refused 10 1"),
        (Err(Refusal::States), "refused 11"),
        (Err(Refusal::Transitions), "refused 12"),
        (Err(conflict), "refused 13 7 1 3 1030"),
        (Ok(table), "table 4 3 1 2"),
    ] {
        // a fault that is there, too, is no lie
        let fits = match (&lie, &truth) {
            (Ok(one), Ok(two)) => one[0] == two[0],
            (Err(one), Err(two)) => one.number() <= 9 && two.number() <= 9 || one == two,
            _ => false,
        };
        if fits {
            continue;
        }
        let (out, status) = run(text, &|_| lie.clone());
        if status != 2 || !out.lines().any(|l| l == line) || !out.contains("does not find the same") {
            return Err(format!("a maker that says {line}: status {status}, {out:?}"));
        }
    }
    Ok(())
}

/// The first difference over so many cards; how often each answer was seen.
fn compare(run: Explain, seed: u64, cards: u64) -> (BTreeMap<String, u64>, Option<(u64, String)>) {
    let mut random = Random::new(seed);
    let mut seen = BTreeMap::new();
    for card in 1..=cards {
        let text = text(&mut random);
        let (out, status) = run(&text, &table_of);
        let result = match expected::check(&text, &out, status) {
            Ok(kind) => {
                *seen.entry(kind).or_insert(0) += 1;
                if card % 16 == 0 {
                    lies(run, &text)
                } else {
                    Ok(())
                }
            }
            Err(what) => Err(what),
        };
        if let Err(what) = result {
            return (seen, Some((card, format!("{:?}: {what}", String::from_utf8_lossy(&text)))));
        }
    }
    (seen, None)
}

/// The cards of files of tests/bison/data; how many there are.
fn stored(paths: impl Iterator<Item = String>) -> Result<u64, String> {
    let mut cards = 0;
    for path in paths {
        let text = std::fs::read_to_string(&path).map_err(|error| format!("{path}: {error}"))?;
        for card in text.lines().filter_map(|line| line.strip_prefix("card ")) {
            let (out, status) = tool(card.as_bytes(), &table_of);
            expected::check(card.as_bytes(), &out, status).map_err(|what| format!("{path}: {card}: {what}"))?;
            cards += 1;
        }
    }
    Ok(cards)
}

fn setting(name: &str, default: u64) -> u64 {
    std::env::var(name).map_or(default, |text| text.parse().expect("a number"))
}

fn main() -> ExitCode {
    let (seed, cards) = (setting("SEED", 1), setting("CARDS", 10_000));
    let (seen, found) = compare(tool, seed, cards);
    if let Some((card, what)) = found {
        println!("FAILED at card {card} of seed {seed}: {what}");
        return ExitCode::FAILURE;
    }
    println!("seed {seed}, {cards} cards: {seen:?}");
    match stored(std::env::args().skip(1)) {
        Ok(cards) => println!("{cards} stored cards"),
        Err(what) => {
            println!("FAILED: {what}");
            return ExitCode::FAILURE;
        }
    }
    let kinds = "not a card,table,4,5,6,7,8,9,10,11,12,13";
    let unseen: Vec<&str> = kinds.split(',').filter(|&kind| !seen.contains_key(kind)).collect();
    if !unseen.is_empty() {
        println!("FAILED: not seen: {unseen:?}");
        return ExitCode::FAILURE;
    }
    // A fault may make the tool panic: that is found, too.
    std::panic::set_hook(Box::new(|_| {}));
    let mut missed = 0;
    let (mut last, mut most) = ("", 0);
    for (name, run) in wrong::WRONG {
        let result = std::panic::catch_unwind(|| compare(*run, seed, cards).1.map(|(card, _)| card));
        match result {
            Ok(None) => {
                missed += 1;
                println!("NOT FOUND: {name}");
            }
            Ok(Some(card)) if card > most => (last, most) = (name, card),
            _ => {}
        }
    }
    println!("{} planted faults, {missed} not found; the last at card {most}: {last}", wrong::WRONG.len());
    ExitCode::from((missed > 0) as u8)
}
