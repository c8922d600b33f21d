//! Two cards merged into one, against the reference: single pairs with everything written
//! out, and random ones, whole or damaged, in areas of all lengths. Of some merged cards the
//! sentences are looked at, and what the maker makes of them. Planted faults must be found,
//! by the single pairs and by the random ones, and by the sentences or the maker alone
//! where the card told has other sentences or is none.

pub mod cases;
pub mod faults;
mod kinds;
mod lines;
pub mod pairs;

use std::slice::{from_raw_parts, from_raw_parts_mut};

use reference::merge::{merge, out, Merged};
use reference::random::Random;

use crate::abi::{self, Merge};
use crate::guarded::Guarded;
use crate::show;
use cases::{cases, Case};
use faults::{Fault, Seen, FAULTS};
use kinds::{Kinds, KINDS};
use lines::{Counts, Maker, Sample};
use pairs::Pair;

/// Bytes of room for both cards, and for an area.
const CARDS: usize = 1 << 19;
const AREA: usize = 1 << 18;

/// What stands where the answer goes: no answer has it.
const UNSAID: u64 = 0xdead_beef_dead_beef;

/// The cards, the area and the answer, each directly before a page that nobody may touch.
struct Checker {
    random: Random,
    cards: [Guarded; 2],
    area: Guarded,
    out: Guarded,
    maker: Maker,
    kinds: Kinds,
    counts: Counts,
}

/// What a call left.
struct Left<'a> {
    out: [u64; 3],
    area: &'a [u16],
    old: Vec<u16>,
}

impl Left<'_> {
    /// The card that is told to be merged, as far as it lies in the area.
    fn merged(&self) -> Option<&[u16]> {
        let [answer, _, length] = self.out;
        (answer == 0).then(|| &self.area[..self.area.len().min(length as usize)])
    }

    /// Just this is answered; the merged card stands in front, and what is behind it is as
    /// it was, as all is after a refusal.
    fn compare(&self, expected: &Merged) -> Result<(), String> {
        if self.out != out(expected) {
            return Err(format!("answer {:?}, expected {:?}", self.out, out(expected)));
        }
        let mut right = self.old.clone();
        if let Ok(numbers) = expected {
            right[..numbers.len()].copy_from_slice(numbers);
        }
        match (0..right.len()).find(|&at| self.area[at] != right[at]) {
            Some(at) => Err(format!("place {at} is {}, expected {}", self.area[at], right[at])),
            None => Ok(()),
        }
    }
}

impl Checker {
    fn new() -> Checker {
        Checker {
            random: Random::new(0),
            cards: [Guarded::new(CARDS), Guarded::new(CARDS)],
            area: Guarded::new(AREA),
            out: Guarded::new(24),
            maker: Maker::new(),
            kinds: Kinds::default(),
            counts: Counts::default(),
        }
    }

    /// As new, with a seed.
    fn restart(&mut self, seed: u64) {
        self.random = Random::new(seed);
        self.kinds = Kinds::default();
        self.counts = Counts::default();
    }

    /// What lies in memory before the guard of each card: both cards, where they share it.
    fn memory(pair: &Pair) -> [Vec<u16>; 2] {
        match pair.second_at {
            None => [pair.first.clone(), pair.second.clone()],
            Some(at) => {
                let both = [&pair.first[..at], &pair.second].concat();
                assert!(both.starts_with(&pair.first), "cards that cannot share memory");
                [both, vec![]]
            }
        }
    }

    /// The call, which writes no card and nothing before area and answer.
    fn call(&mut self, pair: &Pair, tested: &Merge) -> Result<Left<'_>, String> {
        let old: Vec<u16> = (0..pair.room).map(|_| self.random.draw() as u16).collect();
        let memory = Checker::memory(pair);
        assert!(memory.iter().all(|m| 2 * m.len() <= CARDS) && 2 * pair.room <= AREA, "too long");
        let [one, two] = [0, 1].map(|which: usize| self.cards[which].place(&memory[which]));
        let (area, answer) = (self.area.place(&old), self.out.place(&[[UNSAID; 3]]));
        // SAFETY: so many numbers were placed there.
        unsafe {
            let second = pair.second_at.map_or(two, |at| one.add(at));
            let first = from_raw_parts(one, pair.first.len());
            let second = from_raw_parts(second, pair.second.len());
            tested(first, second, from_raw_parts_mut(area, pair.room), &mut *answer);
        }
        for (which, card) in ["first", "second"].iter().zip(0..) {
            if self.cards[card].take() != Some(&memory[card]) {
                return Err(format!("the {which} card was written"));
            }
        }
        let out = self.out.take::<[u64; 3]>().ok_or("written before the answer")?;
        let area = self.area.take().ok_or("written before the area")?;
        Ok(Left { out: out[0], area, old })
    }

    /// A single pair: with the reference, and with what is written out.
    fn case(&mut self, case: &Case, tested: &Merge) -> Result<(), String> {
        case.pairs().try_for_each(|pair| {
            if merge(&pair.first, &pair.second, pair.room) != case.expected {
                return Err(format!("{} places: the reference differs", pair.room));
            }
            let told = |what| format!("{} places: {what}", pair.room);
            self.call(&pair, tested)?.compare(&case.expected).map_err(told)
        })
    }

    /// The next random pair.
    fn next(&mut self, tested: &Merge) -> Result<(), String> {
        let pair = pairs::pair(&mut self.random);
        let expected = merge(&pair.first, &pair.second, pair.room);
        self.kinds.count(&pair, &expected);
        let left = self.call(&pair, tested).and_then(|left| left.compare(&expected));
        left.map_err(|what| {
            let card = |card: &[u16]| show(&card[..card.len().min(800)]);
            let (first, second) = (card(&pair.first), card(&pair.second));
            format!("{} places, first {first}; second {second}: {what}", pair.room)
        })
    }

    /// The sentences of a merged card, and what the maker makes of it.
    fn sample(&mut self, random: &mut Random, tested: &Merge) -> Result<(), String> {
        let pair = loop {
            let pair = pairs::pair(random);
            if merge(&pair.first, &pair.second, pair.room).is_ok() {
                break pair;
            }
        };
        let sample = Sample::new(random, pair);
        let merged = self.call(&sample.pair, tested)?.merged().map(<[u16]>::to_vec);
        let merged = merged.ok_or("a refusal")?;
        sample.count(&mut self.counts);
        let made = sample.made(&merged, &mut self.maker, &mut self.counts);
        made.and_then(|()| sample.told(&merged)).map_err(|what| {
            format!("{} with {}: {what}", show(&sample.pair.first), show(&sample.pair.second))
        })
    }

    /// Whether the lines of some samples show a fault, and whether the maker does.
    fn shown(&mut self, samples: &[Sample], wrong: &Merge) -> (bool, bool) {
        let (mut by_lines, mut by_maker) = (false, false);
        for sample in samples {
            let Ok(left) = self.call(&sample.pair, wrong) else { continue };
            let Some(merged) = left.merged().map(<[u16]>::to_vec) else { continue };
            by_lines = by_lines || sample.told(&merged).is_err();
            let (maker, counts) = (&mut self.maker, &mut self.counts);
            by_maker = by_maker || sample.made(&merged, maker, counts).is_err();
            if by_lines && by_maker {
                break;
            }
        }
        (by_lines, by_maker)
    }
}

/// The single pairs, and so many random ones of a seed.
struct Pairs {
    cases: Vec<Case>,
    samples: Vec<Sample>,
    seed: u64,
    pairs: u64,
    checker: Checker,
}

/// For so many random pairs the sentences of one merged card are looked at.
const SAMPLED: u64 = 50;
/// So many pairs show whether lines or the maker find a planted fault.
const SAMPLES: usize = 80;

impl Pairs {
    fn new(seed: u64, pairs: u64) -> Pairs {
        let mut random = Random::new(1);
        let sample = |_| {
            let pair = pairs::small(&mut random);
            Sample::new(&mut random, pair)
        };
        let samples = (0..SAMPLES).map(sample).collect();
        Pairs { cases: cases(), samples, seed, pairs, checker: Checker::new() }
    }

    /// The first single pair that finds something, with what it finds.
    fn first_case(&mut self, tested: &Merge) -> Option<(&str, String)> {
        let checker = &mut self.checker;
        checker.restart(self.seed);
        self.cases
            .iter()
            .find_map(|case| Some((case.name.as_str(), checker.case(case, tested).err()?)))
    }

    /// The first random pair that does, of the first so many, by its number.
    fn first_pair(&mut self, most: u64, tested: &Merge) -> Option<(u64, String)> {
        let checker = &mut self.checker;
        checker.restart(self.seed);
        (1..=self.pairs.min(most)).find_map(|pair| Some((pair, checker.next(tested).err()?)))
    }

    /// No single pair finds anything, of the first so many random ones none, and no lines.
    fn compared(&mut self, most: u64, tested: &Merge) -> Result<(), String> {
        let seed = self.seed;
        if let Some((case, what)) = self.first_case(tested) {
            return Err(format!("single pair \"{case}\": {what}"));
        }
        if let Some((pair, what)) = self.first_pair(most, tested) {
            return Err(format!("pair {pair} of seed {seed}: {what}"));
        }
        let mut random = Random::new(seed);
        (0..most / SAMPLED).try_for_each(|_| self.checker.sample(&mut random, tested))
    }

    /// A wrong function is found by a single pair and by a random one, and by lines or the
    /// maker alone where that is said of it.
    fn find(&mut self, name: &str, wrong: &Merge, seen: Seen) -> bool {
        let case = self.first_case(wrong).map(|(case, _)| format!("\"{case}\""));
        let pair = self.first_pair(u64::MAX, wrong).map(|(pair, _)| format!("pair {pair}"));
        let shown = self.checker.shown(&self.samples, wrong);
        let as_said = match (seen, shown) {
            (Seen::Numbers, (by_lines, by_maker)) => !by_lines && !by_maker,
            (Seen::Maker, (_, by_maker)) => by_maker,
            (Seen::Both, (by_lines, by_maker)) => by_lines && by_maker,
        };
        let good = case.is_some() && pair.is_some() && as_said;
        let word = if good { "found" } else { "NOT FOUND" };
        let case = case.unwrap_or("no single pair".into());
        let pair = pair.unwrap_or("no random pair".into());
        let shown = match shown {
            (false, false) => "",
            (true, false) => ", lines",
            (false, true) => ", maker",
            (true, true) => ", lines, maker",
        };
        let said = if as_said { "" } else { ", otherwise than said" };
        println!("{word}: {name} ({case}, {pair}{shown}{said})");
        good
    }
}

/// Prints what was seen; fails where something was seen too seldom.
fn enough(single: &[Case], pairs: u64, checker: &Checker) -> bool {
    let tries: usize = single.iter().map(|case| case.rooms.len()).sum();
    println!("{} single pairs in {tries} areas, {pairs} random ones", single.len());
    let counts = &checker.counts;
    let named = KINDS.iter().zip(checker.kinds.0).map(|((name, _), count)| (*name, count));
    let lines = ["no sentence", "only the first's", "only the second's", "a sentence of both"];
    let read = ["the first's, read by the table", "the second's, read by the table"];
    let maker = [("merged, then a table", 0), ("merged, then 13", 13)];
    let all: Vec<_> = named
        .chain(lines.into_iter().zip(counts.lines))
        .chain(read.into_iter().zip(counts.read))
        .chain(maker.map(|(name, answer)| (name, counts.answers[answer])))
        .collect();
    all.iter().for_each(|(name, count)| println!("{name:>44} {count:>8}"));
    let [states, transitions] = [11, 12].map(|answer| counts.answers[answer]);
    println!("{} merged cards looked at; 11 {states}, 12 {transitions}", counts.cards);
    let few: Vec<_> = all.iter().filter(|(_, count)| *count < 100).collect();
    if !few.is_empty() {
        println!("FAILED: under 100 times: {few:?}; with few CARDS it may be so");
    }
    few.is_empty()
}

/// The planted faults are found.
fn found(pairs: &mut Pairs) -> bool {
    let mut missed = 0;
    for (name, fault, seen) in FAULTS {
        missed += usize::from(!pairs.find(name, &faults::with(fault), seen));
    }
    for what in BEHIND {
        let died = crate::dies(&["merge-behind", what]);
        println!("{}: {what}", if died { "found" } else { "NOT FOUND" });
        missed += usize::from(!died);
    }
    println!("{} planted faults, {missed} not found", FAULTS.len() + BEHIND.len());
    missed == 0
}

/// What ends the process: places that are read, and such that are written.
const BEHIND: [&str; 4] = [
    "a number behind the first card read",
    "a number behind the second card read",
    "a number behind the area written",
    "a number behind the answer written",
];

/// With a function that is right but touches what is behind a card, the area or the
/// answer: the process must not live to the end of it.
pub fn behind(what: &str) -> bool {
    let which = BEHIND.iter().position(|&known| known == what);
    let touches = move |first: &[u16], second: &[u16], area: &mut [u16], out: &mut [u64; 3]| {
        // SAFETY: none; it is what the pages behind all four are to stop.
        unsafe {
            match which {
                Some(0) => drop(first.as_ptr().add(first.len()).read_volatile()),
                Some(1) => drop(second.as_ptr().add(second.len()).read_volatile()),
                Some(2) => area.as_mut_ptr().add(area.len()).write_volatile(0),
                _ => out.as_mut_ptr().add(3).write_volatile(0),
            }
        }
        faults::merge(first, second, area, out, Fault::None)
    };
    Pairs::new(1, 0).compared(0, &touches).is_ok()
}

pub fn merges(seed: u64, count: u64) -> bool {
    println!("seed {seed}, {count} pairs; merged by: {}", abi::MERGE);
    let mut pairs = Pairs::new(seed, count);
    // What the wrong ones are made from is right.
    if let Err(what) = pairs.compared(count / 10, &faults::with(Fault::None)) {
        println!("FAILED: arithmetic without a fault, {what}");
        return false;
    }
    match pairs.compared(count, &abi::merge) {
        Ok(()) => enough(&pairs.cases, count, &pairs.checker) && found(&mut pairs),
        Err(what) => {
            println!("FAILED: {what}");
            false
        }
    }
}
