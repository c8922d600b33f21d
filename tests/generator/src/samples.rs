//! Samples of productions: single calls with everything written out, and random ones, for
//! whole or damaged cards and in areas of all lengths. Answers and least lengths are those
//! of the reference; which of the shortest sentences comes is open, so a membership test
//! says whether it is one. Of some the list of all short sentences is looked at, and the
//! reading by the maker's table. Planted faults must be found, by the single calls and by
//! the random ones, and by that list or the reader alone where the sample is wrong.

mod calls;
mod cases;
pub mod faults;
mod kinds;
mod rounds;
mod sentences;

use std::slice::{from_raw_parts, from_raw_parts_mut};

use reference::card::parse;
use reference::random::Random;
use reference::sample::{out, sample, Sampled, MOST};
use reference::uses::uses;

use crate::abi::{self, Sample};
use crate::guarded::Guarded;
use crate::maker::Maker;
use crate::show;
use calls::Call;
use cases::{cases, Case};
use faults::{Fault, Seen, FAULTS};
use kinds::{Kinds, KINDS};
use sentences::{made, Counts, Listings, Small, Told};

/// Bytes of room for a card, and for an area.
const CARD: usize = 1 << 18;
const AREA: usize = 1 << 17;

/// What stands where the answer goes: no answer has it.
const UNSAID: u64 = 0xdead_beef_dead_beef;

/// The membership test is always made where the symbols of the card, times the positions of
/// the sample, are at most so many, and else for one sample of so many.
const QUICK: usize = 5_000;
const SLOW: u64 = 20;

/// The card, the area and the answer, each directly before a page that nobody may touch.
struct Memory {
    bytes: Random,
    card: Guarded,
    area: Guarded,
    out: Guarded,
}

struct Checker {
    calls: Random,
    memory: Memory,
    listings: Listings,
    maker: Maker,
    counts: Counts,
    /// The kinds of the random calls, where they are counted.
    kinds: Option<Kinds>,
    /// Samples that are long for their cards, and samples whose derivations were looked for.
    slow: u64,
    members: u64,
}

/// What a call left.
struct Left<'a> {
    out: [u64; 2],
    area: &'a [u8],
    old: Vec<u8>,
}

impl Left<'_> {
    fn told(&self) -> Told<'_> {
        let length = if self.out[0] == 0 { self.out[1] as usize } else { 0 };
        Told { out: self.out, sample: &self.area[..length.min(self.area.len())] }
    }

    /// Just this is answered; behind a sample of the least length, of whatever terminals,
    /// are zeros up to 255, and what is behind these is as it was, as all is after a refusal.
    fn compare(&self, expected: &Sampled) -> Result<(), String> {
        if self.out != out(expected) {
            return Err(format!("answer {:?}, expected {:?}", self.out, out(expected)));
        }
        let mut right = self.old.clone();
        if let Ok(sample) = expected {
            right[..MOST].fill(0);
            right[..sample.len()].copy_from_slice(&self.area[..sample.len()]);
        }
        match (0..right.len()).find(|&at| self.area[at] != right[at]) {
            Some(at) => Err(format!("byte {at} is {}, expected {}", self.area[at], right[at])),
            None => Ok(()),
        }
    }
}

impl Memory {
    fn new() -> Memory {
        let bytes = Random::new(0);
        let (card, area, out) = (Guarded::new(CARD), Guarded::new(AREA), Guarded::new(16));
        Memory { bytes, card, area, out }
    }

    /// The call, which does not write the card and nothing before area and answer.
    fn call(&mut self, call: &Call, tested: &Sample) -> Result<Left<'_>, String> {
        let old: Vec<u8> = (0..call.room).map(|_| self.bytes.draw() as u8).collect();
        assert!(2 * call.card.len() <= CARD && call.room <= AREA, "too long");
        let (card, area) = (self.card.place(&call.card), self.area.place(&old));
        let answer = self.out.place(&[[UNSAID; 2]]);
        // SAFETY: so many numbers were placed there.
        unsafe {
            let card = from_raw_parts(card, call.card.len());
            tested(card, call.production, from_raw_parts_mut(area, call.room), &mut *answer);
        }
        if self.card.take() != Some(&call.card) {
            return Err("the card was written".into());
        }
        let out = self.out.take::<[u64; 2]>().ok_or("written before the answer")?;
        let area = self.area.take().ok_or("written before the area")?;
        Ok(Left { out: out[0], area, old })
    }
}

impl Checker {
    fn new() -> Checker {
        Checker {
            calls: Random::new(0),
            memory: Memory::new(),
            listings: Listings::default(),
            maker: Maker::new(),
            counts: Counts::default(),
            kinds: None,
            slow: 0,
            members: 0,
        }
    }

    /// As new, with a seed.
    fn restart(&mut self, seed: u64) {
        (self.calls, self.memory.bytes) = (Random::new(seed), Random::new(!seed));
        (self.counts, self.kinds) = (Counts::default(), None);
        (self.slow, self.members) = (0, 0);
    }

    /// The call, compared with what is expected; the sample, if there is one.
    fn compared(
        &mut self,
        call: &Call,
        expected: &Sampled,
        tested: &Sample,
    ) -> Result<Option<Vec<u8>>, String> {
        let left = self.memory.call(call, tested)?;
        left.compare(expected)?;
        Ok(expected.is_ok().then(|| left.told().sample.to_vec()))
    }

    /// Some derivation of the sample uses the production.
    fn member(&mut self, call: &Call, sample: &[u8]) -> Result<(), String> {
        self.members += 1;
        let card = parse(&call.card).expect("a card without a fault of form");
        match uses(&card, call.production as usize, sample) {
            true => Ok(()),
            false => Err(format!("{sample:?} is no sentence that uses the production")),
        }
    }

    /// The calls of a single case.
    fn case(&mut self, single: &Single, tested: &Sample) -> Result<(), String> {
        single.calls.iter().try_for_each(|(call, expected)| {
            let found = self.compared(call, expected, tested);
            let found = found.and_then(|found| match found {
                Some(found) => single.case.sample(call, &found),
                None => Ok(()),
            });
            found.map_err(|what| {
                format!("production {}, {} bytes: {what}", call.production, call.room)
            })
        })
    }

    /// The next random call.
    fn next(&mut self, tested: &Sample) -> Result<(), String> {
        let call = calls::call(&mut self.calls);
        let expected = sample(&call.card, call.production, call.room);
        if let Some(kinds) = &mut self.kinds {
            kinds.count(&call, &expected);
        }
        let checked = self.compared(&call, &expected, tested).and_then(|found| {
            let Some(found) = found else { return Ok(()) };
            if found.iter().any(|&m| m == 0 || u16::from(m) >= call.card[0]) {
                return Err(format!("{found:?} has what is no terminal"));
            }
            if call.card.len() * (found.len() + 1) > QUICK {
                self.slow += 1;
                if self.slow % SLOW != 1 {
                    return Ok(());
                }
            }
            self.member(&call, &found)
        });
        checked.map_err(|what| told_of(&call, what))
    }

    /// A random call by the maker, and a small one by the list and the maker.
    fn look(&mut self, random: &mut Random, tested: &Sample) -> Result<(), String> {
        let (maker, counts) = (&mut self.maker, &mut self.counts);
        let call = Call { room: MOST, ..calls::call(random) };
        let left = self.memory.call(&call, tested)?;
        made(&call, &left.told(), maker, counts).map_err(|what| told_of(&call, what))?;
        let small = Small::new(calls::small(random), &mut self.listings);
        let left = self.memory.call(&small.call, tested)?;
        let listed = small.told(&left.told(), counts);
        let both = listed.and_then(|()| made(&small.call, &left.told(), maker, counts));
        both.map_err(|what| told_of(&small.call, what))
    }

    /// Whether the lists of some small calls show a fault, and whether the reader does.
    fn shown(&mut self, small: &[Small], wrong: &Sample) -> (bool, bool) {
        let (mut by_list, mut by_reader) = (false, false);
        let (maker, counts) = (&mut self.maker, &mut self.counts);
        for small in small {
            let Ok(left) = self.memory.call(&small.call, wrong) else { continue };
            by_list = by_list || small.told(&left.told(), counts).is_err();
            by_reader = by_reader || made(&small.call, &left.told(), maker, counts).is_err();
            if by_list && by_reader {
                break;
            }
        }
        (by_list, by_reader)
    }
}

fn told_of(call: &Call, what: String) -> String {
    let card = show(&call.card[..call.card.len().min(800)]);
    format!("production {}, {} bytes, card {card}: {what}", call.production, call.room)
}

/// A single case, and its calls with the reference's answers.
struct Single {
    case: Case,
    calls: Vec<(Call, Sampled)>,
}

/// The single cases, and so many random calls of a seed.
struct Calls {
    cases: Vec<Single>,
    small: Vec<Small>,
    seed: u64,
    calls: u64,
    checker: Checker,
}

/// For so many random calls one is looked at by the maker, and one by the list.
const LOOKED: u64 = 50;
/// So many small calls show whether the list or the reader finds a planted fault.
const SMALL: usize = 600;

impl Calls {
    fn new(seed: u64, calls: u64) -> Result<Calls, String> {
        let (mut random, mut checker) = (Random::new(1), Checker::new());
        let mut small = || Small::new(calls::small(&mut random), &mut checker.listings);
        let small = (0..SMALL).map(|_| small()).collect();
        let mut answered = |case: Case| {
            let calls = case.answered(&mut checker.listings);
            let told = |what| format!("single case \"{}\": {what}", case.name);
            Ok(Single { calls: calls.map_err(told)?, case })
        };
        let cases = cases().into_iter().map(&mut answered).collect::<Result<_, String>>()?;
        Ok(Calls { cases, small, seed, calls, checker })
    }

    /// The first single call that finds something, with what it finds.
    fn first_case(&mut self, tested: &Sample) -> Option<(&str, String)> {
        let checker = &mut self.checker;
        checker.restart(self.seed);
        self.cases
            .iter()
            .find_map(|one| Some((one.case.name.as_str(), checker.case(one, tested).err()?)))
    }

    /// The first random call that does, of the first so many, by its number.
    fn first_call(&mut self, most: u64, tested: &Sample) -> Option<(u64, String)> {
        let checker = &mut self.checker;
        (1..=self.calls.min(most)).find_map(|call| Some((call, checker.next(tested).err()?)))
    }

    /// No single call finds anything, of the first so many random ones none, and no list or
    /// maker.
    fn compared(&mut self, most: u64, tested: &Sample) -> Result<(), String> {
        let seed = self.seed;
        if let Some((case, what)) = self.first_case(tested) {
            return Err(format!("single case \"{case}\": {what}"));
        }
        self.checker.restart(seed);
        self.checker.kinds = Some(Kinds::default());
        if let Some((call, what)) = self.first_call(most, tested) {
            return Err(format!("call {call} of seed {seed}: {what}"));
        }
        let mut random = Random::new(seed ^ 1 << 32);
        (0..most / LOOKED).try_for_each(|_| self.checker.look(&mut random, tested))
    }

    /// A wrong function is found by a single call and by a random one, and by the list or
    /// the reader alone where that is said of it.
    fn find(&mut self, name: &str, wrong: &Sample, seen: Seen) -> bool {
        let case = self.first_case(wrong).map(|(case, _)| format!("\"{case}\""));
        self.checker.restart(self.seed);
        let call = self.first_call(u64::MAX, wrong).map(|(call, _)| format!("call {call}"));
        let shown = self.checker.shown(&self.small, wrong);
        let as_said = match seen {
            Seen::Numbers => shown == (false, false),
            Seen::Listed => shown == (true, false),
            Seen::Both => shown == (true, true),
        };
        let good = case.is_some() && call.is_some() && as_said;
        let word = if good { "found" } else { "NOT FOUND" };
        let case = case.unwrap_or("no single call".into());
        let call = call.unwrap_or("no random call".into());
        let shown = match shown {
            (false, false) => "",
            (true, false) => ", list",
            (false, true) => ", reader",
            (true, true) => ", list, reader",
        };
        let said = if as_said { "" } else { ", otherwise than said" };
        println!("{word}: {name} ({case}, {call}{shown}{said})");
        good
    }
}

/// Prints what was seen; fails where something was seen too seldom.
fn enough(calls: &Calls) -> bool {
    let tries: usize = calls.cases.iter().map(|single| single.calls.len()).sum();
    let cases = calls.cases.len();
    println!("{cases} single cases in {tries} calls, {} random calls", calls.calls);
    let (counts, members) = (&calls.checker.counts, calls.checker.members);
    let kinds = calls.checker.kinds.iter().flat_map(|kinds| kinds.0);
    let named = KINDS.iter().zip(kinds).map(|((name, _), count)| (*name, count));
    let looked = [
        ("listed", counts.listed[0]),
        ("longer than what is listed", counts.listed[1]),
        ("a sample, then a table", counts.answers[0]),
        ("read by the table", counts.read),
        ("a sample, then 13", counts.answers[13]),
        ("refused by 4 to 10, as by the maker", counts.refused),
        ("a derivation looked for", members),
    ];
    let all: Vec<_> = named.chain(looked).collect();
    all.iter().for_each(|(name, count)| println!("{name:>44} {count:>8}"));
    let few: Vec<_> = all.iter().filter(|(_, count)| *count < 100).collect();
    if !few.is_empty() {
        println!("FAILED: under 100 times: {few:?}; with few CARDS it may be so");
    }
    few.is_empty()
}

/// The planted faults are found.
fn found(calls: &mut Calls) -> bool {
    let mut missed = 0;
    for (name, fault, seen) in FAULTS {
        missed += usize::from(!calls.find(name, &faults::with(fault), seen));
    }
    for what in BEHIND {
        let died = crate::dies(&["sample-behind", what]);
        println!("{}: {what}", if died { "found" } else { "NOT FOUND" });
        missed += usize::from(!died);
    }
    println!("{} planted faults, {missed} not found", FAULTS.len() + BEHIND.len());
    missed == 0
}

/// What ends the process: places that are read, and such that are written.
const BEHIND: [&str; 3] = [
    "a number behind the card read",
    "a byte behind the area written",
    "a number behind the answer written",
];

/// With a function that is right but touches what is behind the card, the area or the
/// answer: the process must not live to the end of it.
pub fn behind(what: &str) -> bool {
    let which = BEHIND.iter().position(|&known| known == what);
    let touches = move |card: &[u16], production: u64, area: &mut [u8], out: &mut [u64; 2]| {
        // SAFETY: none; it is what the pages behind all three are to stop.
        unsafe {
            match which {
                Some(0) => drop(card.as_ptr().add(card.len()).read_volatile()),
                Some(1) => area.as_mut_ptr().add(area.len()).write_volatile(0),
                _ => out.as_mut_ptr().add(2).write_volatile(0),
            }
        }
        faults::sample(card, production, area, out, Fault::None)
    };
    let mut checker = Checker::new();
    (0..100).all(|_| checker.next(&touches).is_ok())
}

/// Single cases and random calls, that of what the wrong ones are made from among them.
fn compared(seed: u64, count: u64) -> Result<Calls, String> {
    let mut calls = Calls::new(seed, count)?;
    let base = calls.compared(count / 10, &faults::with(Fault::None));
    base.map_err(|what| format!("rounds without a fault, {what}"))?;
    calls.compared(count, &abi::sample).map(|()| calls)
}

pub fn samples(seed: u64, count: u64) -> bool {
    println!("seed {seed}, {count} calls; samples by: {}", abi::SAMPLE);
    match compared(seed, count) {
        Ok(mut calls) => enough(&calls) && found(&mut calls),
        Err(what) => {
            println!("FAILED: {what}");
            false
        }
    }
}
