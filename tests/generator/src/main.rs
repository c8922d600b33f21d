//! Random cards through the generator, and inputs through the parser with the
//! tables made.
//!
//!     generator-tests random            compares the linked archives with the reference
//!     generator-tests self-check        requires that wrong generators and parsers are found
//!     generator-tests reads-behind      dies: its generator looks at a symbol behind L
//!     generator-tests sums              compares joins of completed families with the archive
//!     generator-tests lengths           compares shortest lengths with the reference
//!     generator-tests pages             compares tables on pages with the reference
//!     generator-tests pages-behind WHAT dies: its pages touch what is behind an area
//!     generator-tests merges            compares merged cards with the reference
//!     generator-tests merge-behind WHAT dies: its merging touches what is behind an area
//!     generator-tests samples           compares samples with the reference
//!     generator-tests sample-behind WHAT dies: its sample touches what is behind an area
//!     generator-tests measure FILE..    prints sizes and times of stored cards
//!     generator-tests climb WHAT FILE.. looks for cards with more WHAT: time, reads,
//!                                       includes or edges
//!
//! SEED, CARDS and SEARCH_SECONDS set the seed, the number of cards and the time to look.

mod abi;
mod cards;
mod check;
mod choirs;
mod entered;
#[rustfmt::skip]
#[path = "../../reader/src/guarded.rs"]
mod guarded;
mod lengths;
mod lookaheads;
mod maker;
mod measure;
mod merges;
mod offers;
mod pages;
mod parsers;
mod pass;
mod readings;
mod relations;
mod samples;
mod sums;
mod walks;
mod wrong;

use std::os::unix::process::ExitStatusExt;
use std::process::{Command, ExitCode};
use std::time::Instant;

use abi::{Calls, RIGHT};
use check::{Checker, Counts};
use reference::random::Random;

fn setting(name: &str, default: u64) -> u64 {
    match std::env::var(name) {
        Ok(text) => text.parse().unwrap_or_else(|_| panic!("{name} is no number: {text}")),
        Err(_) => default,
    }
}

fn show(numbers: &[u16]) -> String {
    let words: Vec<String> = numbers.iter().map(|n| n.to_string()).collect();
    words.join(" ")
}

fn report(counts: &Counts, seen: &readings::Counts) {
    for (answer, count) in counts.answers.iter().enumerate() {
        let name = if answer == 0 { "table".into() } else { format!("refused {answer}") };
        println!("{name:>12} {count:>8}");
    }
    let [lengths, symbols, both] = counts.right_sides;
    println!("right sides: only 8 {lengths}, only 9 {symbols}, both {both}");
    println!("tables with 64 terminals {}, with over 100 states {}", counts.wide, counts.large);
    println!("by the definition {}, by both ways {}", counts.by_definition, counts.both_ways);
    println!(
        "inputs: accepted {}, wrong at the end {}, wrong before {}, ran out {}, refused {}",
        seen.sentences, seen.wrong_at_end, seen.wrong_before, seen.ran_out, seen.refused
    );
    println!(
        "expected sets: other than the top row {}, by spans too {}, unknown {}, in a longer \
         second area {}; second area short {}",
        seen.moved, seen.by_spans, seen.unknown, seen.saved, seen.second_short
    );
    let closed = &seen.closed;
    println!(
        "closed terminals: refused {}, accepted {}, wrong at one {} (behind a sentence {}), before \
         one {}, missing from the expected set {}",
        closed.refused,
        closed.accepted,
        closed.at,
        closed.behind_sentence,
        closed.before,
        closed.narrowed
    );
}

fn compare(seed: u64, cards: u64) -> bool {
    println!("seed {seed}, {cards} cards; generator: {}, parser: {}", abi::GENERATOR, abi::PARSER);
    let mut random = Random::new(seed);
    let mut checker = Checker::new(&mut random);
    for _ in 0..cards {
        let numbers = cards::card(&mut random);
        if let Err(what) = checker.card(&mut random, &numbers, &abi::generate, abi::TESTED) {
            println!("card {}: {what}", show(&numbers));
            println!("FAILED at card {} of seed {seed}", checker.counts.cards);
            return false;
        }
    }
    report(&checker.counts, checker.seen());
    let unseen: Vec<usize> = (0..14).filter(|&a| checker.counts.answers[a] == 0).collect();
    if !unseen.is_empty() {
        println!("FAILED: answers not seen: {unseen:?}");
    }
    let few = checker.counts.few_right_sides();
    if few {
        println!("FAILED: only 8, only 9 or both for one card in 400, or fewer");
    }
    let few_readings = checker.seen().few();
    if !few_readings.is_empty() {
        println!("FAILED: under 100 times: {few_readings:?}");
    }
    unseen.is_empty() && !few && few_readings.is_empty()
}

/// What a wrong generator or parser is compared with.
#[derive(Clone, Copy)]
enum Against {
    /// The reference, and what the grammar derives.
    All,
    /// No right table: the parser with it, and what the grammar derives.
    WrongTables,
    /// What the grammar derives, and not the reference's parser.
    Grammar,
}

/// The number of the first card at which a wrong generator or parser is found.
fn found(
    seed: u64,
    cards: u64,
    against: Against,
    generator: &abi::Generator,
    calls: Calls,
) -> Option<(u64, String)> {
    let mut random = Random::new(seed);
    let mut checker = Checker::new(&mut random);
    checker.both = u64::MAX;
    checker = match against {
        Against::All => checker,
        Against::WrongTables => checker.with_wrong_tables(),
        Against::Grammar => checker.without_plain_parser(),
    };
    for card in 1..=cards {
        let numbers = cards::card(&mut random);
        if let Err(what) = checker.card(&mut random, &numbers, generator, calls) {
            return Some((card, what));
        }
    }
    None
}

fn generator(c: &[u16], t: &mut [u16], w: &mut [u64], v: &mut [u32]) -> [u64; 5] {
    use reference::answer::{answer, generate, Method};
    generate(c, t, w, v, |card| answer(card, Method::Spreading).expect("an answer"))
}

/// With a generator that is right but looks at a symbol behind L where the lengths
/// are wrong: the process must not live to the end of it.
fn reads_behind(seed: u64, cards: u64) -> bool {
    let reads = |c: &[u16], t: &mut [u16], w: &mut [u64], v: &mut [u32]| {
        let out = generator(c, t, w, v);
        if out[0] == 8 {
            // SAFETY: none; it is what the page behind the card is to stop.
            unsafe { c.as_ptr().add(c.len()).read_volatile() };
        }
        out
    };
    found(seed, cards, Against::All, &reads, RIGHT).is_none()
}

/// The signal for memory that may not be touched.
const SIGSEGV: i32 = 11;

/// Whether a process of its own, with these arguments, is ended by that signal.
fn dies(arguments: &[&str]) -> bool {
    let program = std::env::current_exe().expect("this program");
    let status = Command::new(program).args(arguments).status().expect("a process");
    status.signal() == Some(SIGSEGV)
}

/// What the wrong ones are made from is right: the first card where it is not.
fn wrong_base(seed: u64, cards: u64) -> Option<String> {
    let base = wrong::by_relations("the short way without a fault", relations::Fault::None);
    let publisher = Calls { publisher: &offers::base(), ..RIGHT };
    let choir = Calls { choir: &choirs::base(), ..RIGHT };
    let bases: [(_, &abi::Generator, Calls); 3] = [
        (base.name, &base.generator, RIGHT),
        ("fresh readings without a fault", &generator, publisher),
        ("a choir's without a fault", &generator, choir),
    ];
    for (name, generator, calls) in bases {
        if let Some((card, what)) = found(seed, cards, Against::All, generator, calls) {
            return Some(format!("{name} at card {card}: {what}"));
        }
    }
    if let Some(card) = pass::wrong_card(seed, cards) {
        return Some(format!("one pass without a fault: {card:?}"));
    }
    // Cards of a kind that are too few are told, and only they.
    let few =
        |right_sides| Counts { cards: 400, right_sides, ..Counts::default() }.few_right_sides();
    let told = few([2, 2, 2]) || !few([1, 2, 2]) || !few([2, 1, 2]) || !few([2, 2, 1]);
    told.then_some("the count of right sides refused".into())
}

/// The wrong generators and parsers looked for.
#[derive(Default)]
struct Tally {
    told: u64,
    missed: u64,
}

impl Tally {
    fn tell(&mut self, name: &str, result: Option<(u64, String)>) {
        self.told += 1;
        match result {
            Some((0, what)) => println!("found: {name} ({what})"),
            Some((card, what)) => println!("found at card {card:>6}: {name} ({what})"),
            None => {
                println!("NOT FOUND: {name}");
                self.missed += 1;
            }
        }
    }
}

/// Looks for each wrong generator, and for each wrong parser in its call.
fn look_for_all(seed: u64, cards: u64, tally: &mut Tally) {
    let mut look = |name, against, generator: &abi::Generator, calls: Calls| {
        tally.tell(name, found(seed, cards, against, generator, calls));
    };
    for wrong in wrong::generators() {
        look(wrong.name, Against::All, &wrong.generator, RIGHT);
    }
    for wrong in wrong::tables() {
        look(wrong.name, Against::WrongTables, &wrong.generator, RIGHT);
    }
    let others = parsers::parsers().into_iter().chain(offers::limits()).collect();
    for (against, parsers) in [(Against::All, others), (Against::Grammar, offers::sets())] {
        for (name, wrong) in parsers {
            look(name, against, &generator, Calls { publisher: &wrong, ..RIGHT });
        }
    }
    for (against, calls) in [(Against::All, choirs::calls()), (Against::Grammar, choirs::sets())] {
        for (name, wrong) in calls {
            look(name, against, &generator, Calls { choir: &wrong, ..RIGHT });
        }
    }
}

fn self_check(seed: u64, cards: u64) -> bool {
    println!("seed {seed}, at most {cards} cards each");
    if let Some(what) = wrong_base(seed, cards / 10) {
        println!("FAILED: {what}");
        return false;
    }
    let mut tally = Tally::default();
    look_for_all(seed, cards, &mut tally);
    let died = dies(&["reads-behind"]).then(|| (0, "ended by a signal".to_string()));
    tally.tell("a symbol behind L looked at", died);
    println!("{} wrong generators and parsers, {} not found", tally.told, tally.missed);
    tally.missed == 0
}

fn main() -> ExitCode {
    let seed = setting("SEED", 1);
    let cards = setting("CARDS", 100_000);
    let begun = Instant::now();
    let arguments: Vec<String> = std::env::args().skip(1).collect();
    let good = match arguments.iter().map(String::as_str).collect::<Vec<_>>()[..] {
        ["random"] => compare(seed, cards),
        ["self-check"] => self_check(seed, cards),
        ["reads-behind"] => reads_behind(seed, cards),
        ["sums"] => sums::sums(seed, setting("CARDS", 10_000)),
        ["lengths"] => lengths::lengths(seed, cards),
        ["pages"] => pages::pages(seed, setting("CARDS", 10_000)),
        ["pages-behind", what] => pages::behind(what),
        ["merges"] => merges::merges(seed, cards),
        ["merge-behind", what] => merges::behind(what),
        ["samples"] => samples::samples(seed, cards),
        ["sample-behind", what] => samples::behind(what),
        ["measure", _, ..] => measure::measure_files(&arguments[1..]),
        ["climb", what, _, ..] => {
            let mut random = Random::new(seed);
            measure::climb(&mut random, setting("SEARCH_SECONDS", 60), what, &arguments[2..])
        }
        _ => {
            println!(
                "random, self-check, reads-behind, sums, lengths, pages, pages-behind WHAT, \
                 merges, merge-behind WHAT, samples, sample-behind WHAT, measure FILE.. or climb \
                 WHAT FILE.."
            );
            false
        }
    };
    println!(
        "{} in {:.1} s",
        if good { "passed" } else { "FAILED" },
        begun.elapsed().as_secs_f64()
    );
    if good {
        ExitCode::SUCCESS
    } else {
        ExitCode::FAILURE
    }
}
