//! The shortest lengths of nonterminals, against the reference: single cards and
//! random ones, whatever derives nothing or is not reached, and damaged ones. Planted
//! faults must be found, by the single cards and by the random ones.

mod cards;
mod cases;
pub mod faults;

use reference::card::{parse, MAX_NONTERMINALS};
use reference::random::Random;
use reference::shortest::{capped, lengths as exact, Length};

use crate::abi::{self, Shortest};
use crate::guarded::Guarded;
use crate::show;
use cases::{cases, Case};
use faults::{Fault, FAULTS};

/// The lengths, or the number of the card's fault of form.
type Expected = Result<[u16; MAX_NONTERMINALS], u16>;

/// Kinds of lengths, each with the greatest of its kind.
const KINDS: [(&str, Length); 7] = [
    ("0", 0),
    ("1 to 255", 255),
    ("256 to 65,533", 65_533),
    ("65,534", 65_534),
    ("65,535", 65_535),
    ("65,536", 65_536),
    ("more", Length::MAX),
];

/// What was seen.
#[derive(Default)]
struct Counts {
    cards: u64,
    /// Cards by answer.
    answers: [u64; 10],
    /// Nonterminals without a length, and by the kind of it.
    none: u64,
    kinds: [u64; KINDS.len()],
}

impl Counts {
    fn count(&mut self, length: Option<Length>) {
        match length {
            None => self.none += 1,
            Some(length) => {
                let kind = KINDS.iter().position(|&(_, most)| length <= most);
                self.kinds[kind.expect("no length is more")] += 1;
            }
        }
    }

    /// The counts with their names.
    fn named(&self) -> Vec<(String, u64)> {
        let answers = [0, 4, 5, 6, 7, 8, 9].map(|at| (format!("answer {at}"), self.answers[at]));
        let kinds = KINDS.iter().zip(self.kinds);
        let lengths = kinds.map(|((name, _), count)| (format!("length {name}"), count));
        answers.into_iter().chain([("no length".into(), self.none)]).chain(lengths).collect()
    }
}

/// The card and the lengths, each directly before a page that nobody may touch.
struct Checker {
    random: Random,
    card: Guarded,
    out: Guarded,
    counts: Counts,
}

/// Bytes of room for a card.
const CARD: usize = 65_536;

impl Checker {
    fn new(seed: u64) -> Checker {
        Checker {
            random: Random::new(seed),
            card: Guarded::new(CARD),
            out: Guarded::new(2 * MAX_NONTERMINALS),
            counts: Counts::default(),
        }
    }

    /// What the reference says of a card.
    fn expected(&mut self, numbers: &[u16]) -> Expected {
        let card = parse(numbers).map_err(|fault| fault as u16);
        self.counts.cards += 1;
        self.counts.answers[card.as_ref().map_or_else(|&fault| fault as usize, |_| 0)] += 1;
        let card = card?;
        let lengths = exact(&card);
        lengths[card.terminals..].iter().for_each(|&length| self.counts.count(length));
        Ok(capped(&card, &lengths))
    }

    /// Fails where the answer or what is left differs from what is expected.
    fn compare(
        &mut self,
        numbers: &[u16],
        expected: Expected,
        tested: &Shortest,
    ) -> Result<(), String> {
        assert!(std::mem::size_of_val(numbers) <= CARD, "a card of {} numbers", numbers.len());
        let old = [0; MAX_NONTERMINALS].map(|_: u16| self.random.draw() as u16);
        let (card, out) = (self.card.place(numbers), self.out.place(&[old]));
        // SAFETY: so many numbers were placed there.
        let (card, out) = unsafe { (std::slice::from_raw_parts(card, numbers.len()), &mut *out) };
        let answer = tested(card, out);
        if self.card.take() != Some(numbers) {
            return Err("the card was written".into());
        }
        let Some([left]) = self.out.take::<[u16; MAX_NONTERMINALS]>() else {
            return Err("written before the lengths".into());
        };
        if answer != expected.err().unwrap_or(0) {
            return Err(format!("answer {answer}, expected {expected:?}"));
        }
        let right = expected.unwrap_or(old);
        match (0..MAX_NONTERMINALS).find(|&j| left[j] != right[j]) {
            Some(j) => Err(format!("number {j} is {}, expected {}", left[j], right[j])),
            None => Ok(()),
        }
    }

    /// A single card: with the reference, and with what is written out.
    fn case(&mut self, case: &Case, tested: &Shortest) -> Result<(), String> {
        if self.expected(&case.card) != case.expected {
            return Err("the reference differs".into());
        }
        self.compare(&case.card, case.expected, tested)
    }

    /// The next random card.
    fn next(&mut self, tested: &Shortest) -> Result<(), String> {
        let numbers = cards::card(&mut self.random);
        let expected = self.expected(&numbers);
        let told = |what| format!("card {}: {what}", show(&numbers));
        self.compare(&numbers, expected, tested).map_err(told)
    }
}

/// The first single card that finds something, with what it finds.
fn first_case(seed: u64, tested: &Shortest) -> Option<(&'static str, String)> {
    let mut checker = Checker::new(seed);
    cases().iter().find_map(|case| Some((case.name, checker.case(case, tested).err()?)))
}

/// The first random card that does, by its number; what was seen.
fn first_card(seed: u64, cards: u64, tested: &Shortest) -> (Option<(u64, String)>, Counts) {
    let mut checker = Checker::new(seed);
    let found = (1..=cards).find_map(|card| Some((card, checker.next(tested).err()?)));
    (found, checker.counts)
}

/// No single card and no random one finds anything; what was seen.
fn compared(seed: u64, cards: u64, tested: &Shortest) -> Result<Counts, String> {
    if let Some((case, what)) = first_case(seed, tested) {
        return Err(format!("single card \"{case}\": {what}"));
    }
    match first_card(seed, cards, tested) {
        (Some((card, what)), _) => Err(format!("card {card} of seed {seed}: {what}")),
        (None, counts) => Ok(counts),
    }
}

/// Prints what was seen; fails where something was seen too seldom.
fn enough(counts: &Counts) -> bool {
    let named = counts.named();
    println!("{} single cards, {} random ones", cases().len(), counts.cards);
    named.iter().for_each(|(name, count)| println!("{name:>20} {count:>8}"));
    let few: Vec<_> = named.iter().filter(|(_, count)| *count < 100).collect();
    if !few.is_empty() {
        println!("FAILED: under 100 times: {few:?}; with few CARDS it may be so");
    }
    few.is_empty()
}

/// The planted faults are found, each by a single card and by a random one.
fn found(seed: u64, cards: u64) -> bool {
    let mut missed = 0;
    for (name, fault) in FAULTS {
        let wrong = faults::with(fault);
        let (case, card) = (first_case(seed, &wrong), first_card(seed, cards, &wrong).0);
        let word = if case.is_some() && card.is_some() { "found" } else { "NOT FOUND" };
        let case = case.map_or("no single card".into(), |(case, _)| format!("\"{case}\""));
        let card = card.map_or("no random card".into(), |(card, _)| format!("card {card}"));
        println!("{word}: {name} ({case}, {card})");
        missed += usize::from(word != "found");
    }
    println!("{} planted faults, {missed} not found", FAULTS.len());
    missed == 0
}

pub fn lengths(seed: u64, cards: u64) -> bool {
    println!("seed {seed}, {cards} cards; lengths: {}", abi::LENGTHS);
    // What the wrong ones are made from is right.
    if let Err(what) = compared(seed, cards / 10, &faults::with(Fault::None)) {
        println!("FAILED: rounds without a fault, {what}");
        return false;
    }
    match compared(seed, cards, &abi::shortest) {
        Ok(counts) => enough(&counts) && found(seed, cards),
        Err(what) => {
            println!("FAILED: {what}");
            false
        }
    }
}
