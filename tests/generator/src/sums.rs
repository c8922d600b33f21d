//! Completed sets add up: the direct reads are split into families, each family is
//! completed by itself along reads and then along includes, and the results are
//! joined; what is made of them must be what the generator answers and leaves. So
//! it must be with sets completed twice. Planted faults must be found.

use reference::answer::{finish, grammar, Answer, MAX_TRANSITIONS};
use reference::automaton::Automaton;
use reference::grammar::Grammar;
use reference::lr0;
use reference::random::Random;

use crate::abi::{self, Generator};
use crate::check::Areas;
use crate::relations::{self, Relations};
use crate::walks::{self, joined, Walk};
use crate::{cards, show, wrong};

/// How the direct reads are split into families.
#[derive(Clone, Copy, Debug)]
enum Split {
    ByTerminals,
    ByTransitions,
    Overlapping,
    EachTerminal,
}

use Split::*;

/// What is compared with the generator.
#[derive(Clone, Copy, Debug)]
enum Comparison {
    Sum(Split),
    Twice,
}

use Comparison::*;

const SUMS: [Comparison; 4] =
    [Sum(ByTerminals), Sum(ByTransitions), Sum(Overlapping), Sum(EachTerminal)];
const ALL: [Comparison; 5] =
    [Sum(ByTerminals), Sum(ByTransitions), Sum(Overlapping), Sum(EachTerminal), Twice];

/// A fault of what is done with the families.
#[derive(Clone, Copy, PartialEq, Eq)]
enum Fault {
    None,
    IncludesFirst,
    FamilyLost,
    Meet,
    Exclusive,
    SecondWalkOnOne,
    OtherAgain,
}

/// The faults, each with the comparisons of which each by itself must find it.
const FAULTS: [(&str, Fault, &[Comparison]); 6] = [
    ("includes before reads", Fault::IncludesFirst, &ALL),
    ("a family left out", Fault::FamilyLost, &SUMS),
    ("a meet of the families", Fault::Meet, &SUMS),
    ("an exclusive join", Fault::Exclusive, &[Sum(ByTransitions), Sum(Overlapping)]),
    ("the second walk for one family only", Fault::SecondWalkOnOne, &SUMS),
    ("the second time along the other relation", Fault::OtherAgain, &[Twice]),
];

/// Generators with a wrong walk; each comparison by itself must find them.
const GENERATORS: [(&str, relations::Fault); 4] = [
    ("a generator without reads", relations::Fault::NoReads),
    ("a generator with one step along reads", relations::Fault::ReadsOnce),
    ("a generator with one step along includes", relations::Fault::IncludesOnce),
    ("a generator whose cycles do not share a set", relations::Fault::CyclesApart),
];

/// Cards whose answer tells of a cycle in reads. Such a cycle makes conflicts, and
/// only the first of them is told: few random cards tell of it.
const CYCLES: [&[u16]; 2] = [
    &[5, 3, 4, 10, 7, 5, 6, 7, 6, 2, 2, 0, 6, 6, 6, 6, 4, 6, 2, 6, 7, 7],
    &[
        3, 6, 11, 15, 3, 7, 5, 8, 4, 6, 6, 8, 4, 4, 6, 2, 4, 0, 0, 0, 3, 2, 1, 0, 2, 1, 2, 7, 4, 5,
        8, 6, 2, 7, 7, 2, 7, 7, 8, 7, 1,
    ],
];

/// A fault is sought in at least so many cards.
const SOUGHT: u64 = 100_000;

/// The faults of both walks and of the families.
#[derive(Clone, Copy)]
struct Planted {
    reads: walks::Fault,
    includes: walks::Fault,
    sum: Fault,
}

const NONE: Planted =
    Planted { reads: walks::Fault::None, includes: walks::Fault::None, sum: Fault::None };

/// Two families: the sets within the first and within the second of each pair.
fn halves(starts: &[u64], mut pair: impl FnMut() -> [u64; 2]) -> Vec<Vec<u64>> {
    let pairs: Vec<[u64; 2]> = starts.iter().map(|_| pair()).collect();
    let half = |at: usize| starts.iter().zip(&pairs).map(|(set, pair)| set & pair[at]).collect();
    vec![half(0), half(1)]
}

/// Families whose join is the starting sets.
fn families(random: &mut Random, by: Split, starts: &[u64], terminals: usize) -> Vec<Vec<u64>> {
    match by {
        ByTerminals => {
            let some = random.draw();
            halves(starts, || [some, !some])
        }
        ByTransitions => {
            halves(starts, || if random.chance(50) { [u64::MAX, 0] } else { [0, u64::MAX] })
        }
        Overlapping => halves(starts, || {
            let some = random.draw();
            [some, !some | random.draw()]
        }),
        EachTerminal => (0..terminals)
            .map(|terminal| starts.iter().map(|set| set & 1 << terminal).collect())
            .collect(),
    }
}

/// A card whose answer has lookaheads in it.
struct Prepared {
    grammar: Grammar,
    automaton: Automaton,
    transitions: Vec<(usize, usize)>,
    starts: Vec<u64>,
    first: Walk,
    second: Walk,
    fault: Fault,
}

impl Prepared {
    fn new(numbers: &[u16], planted: Planted) -> Option<Prepared> {
        let grammar = grammar(numbers).ok()?;
        let automaton = lr0::automaton(&grammar).ok()?;
        let right = relations::Fault::None;
        let Relations { transitions, reads, includes } =
            relations::relations(&grammar, &automaton, right);
        if transitions.len() > MAX_TRANSITIONS {
            return None;
        }
        let starts = relations::direct_reads(&grammar, &automaton, &transitions, right);
        let mut first = Walk::new(reads, planted.reads);
        let mut second = Walk::new(includes, planted.includes);
        let fault = planted.sum;
        if fault == Fault::IncludesFirst {
            std::mem::swap(&mut first, &mut second);
        }
        Some(Prepared { grammar, automaton, transitions, starts, first, second, fault })
    }

    /// The families completed one by one, and joined.
    fn sum(&self, families: &[Vec<u64>]) -> Vec<u64> {
        let lost = usize::from(self.fault == Fault::FamilyLost);
        let completed = families.iter().enumerate().skip(lost).map(|(number, starts)| {
            let read = self.first.complete(starts);
            match self.fault {
                Fault::SecondWalkOnOne if number > 0 => read,
                _ => self.second.complete(&read),
            }
        });
        let join = |one: Vec<u64>, two: Vec<u64>| match self.fault {
            Fault::Meet => one.iter().zip(&two).map(|(one, two)| one & two).collect(),
            Fault::Exclusive => one.iter().zip(&two).map(|(one, two)| one ^ two).collect(),
            _ => joined(&one, &two),
        };
        completed.reduce(join).unwrap_or_else(|| vec![0; self.starts.len()])
    }

    /// The sets completed twice along each relation; fails where the second time
    /// changes one.
    fn twice(&self) -> Result<Vec<u64>, String> {
        let other = self.fault == Fault::OtherAgain;
        let again = if other { &self.first } else { &self.second };
        let read = self.first.complete(&self.starts);
        let included = self.second.complete(&read);
        if self.first.complete(&read) != read || again.complete(&included) != included {
            return Err("the second time changed a set".into());
        }
        Ok(again.complete(&self.second.complete(&self.first.complete(&read))))
    }

    /// The answer with these sets.
    fn answer(&mut self, sets: &[u64]) -> Answer {
        let right = relations::Fault::None;
        relations::look_back(&self.grammar, &mut self.automaton, &self.transitions, sets, right);
        finish(&self.grammar, &self.automaton)
    }
}

/// What was compared.
#[derive(Default)]
struct Counts {
    tables: u64,
    conflicts: u64,
    splits: u64,
    families: usize,
}

/// Cards through one generator: the same cards whatever is compared.
struct Checker<'a> {
    known: std::slice::Iter<'static, &'static [u16]>,
    cards: Random,
    splits: Random,
    areas: Areas,
    generator: &'a Generator,
    counts: Counts,
}

impl Checker<'_> {
    fn new(seed: u64, generator: &Generator) -> Checker<'_> {
        let splits = Random::new(seed);
        let mut cards = splits.clone();
        let areas = Areas::new(&mut cards);
        Checker { known: CYCLES.iter(), cards, splits, areas, generator, counts: Counts::default() }
    }

    fn draw(&mut self) -> Vec<u16> {
        match self.known.next() {
            Some(numbers) => numbers.to_vec(),
            None => cards::card(&mut self.cards),
        }
    }

    /// What each comparison says of the next card: nothing, or the first difference.
    fn card(&mut self, by: &[Comparison], planted: Planted) -> Vec<Result<(), String>> {
        let numbers = self.draw();
        let Some(mut card) = Prepared::new(&numbers, planted) else {
            return vec![Ok(()); by.len()];
        };
        let out = self.areas.generate(&mut self.cards, [false; 3], &numbers, self.generator);
        self.counts.tables += u64::from(out[0] == 0);
        self.counts.conflicts += u64::from(out[0] == 13);
        let tell = |by: Comparison, what| format!("{by:?}, card {}: {what}", show(&numbers));
        by.iter()
            .map(|&by| self.compare(&mut card, by, out).map_err(|what| tell(by, what)))
            .collect()
    }

    fn compare(
        &mut self,
        card: &mut Prepared,
        by: Comparison,
        out: [u64; 5],
    ) -> Result<(), String> {
        let sets = match by {
            Sum(split) => {
                let terminals = card.grammar.card.terminals;
                let families = families(&mut self.splits, split, &card.starts, terminals);
                self.counts.splits += 1;
                self.counts.families += families.len();
                card.sum(&families)
            }
            Twice => card.twice()?,
        };
        self.areas.compare(&card.answer(&sets), out)
    }
}

/// Compares the linked generator.
fn compared(seed: u64, cards: u64) -> bool {
    let mut checker = Checker::new(seed, &abi::generate);
    for card in 1..=cards {
        if let Some(what) = checker.card(&ALL, NONE).into_iter().find_map(Result::err) {
            println!("FAILED at card {card} of seed {seed}: {what}");
            return false;
        }
    }
    let Counts { tables, conflicts, splits, families } = checker.counts;
    println!("{cards} cards: {tables} tables, {conflicts} conflicts");
    println!("{splits} splits into {families} families");
    if tables == 0 || conflicts == 0 {
        println!("FAILED: no table or no conflict seen; with so few CARDS there may be none");
    }
    tables > 0 && conflicts > 0
}

/// Looks for planted faults, for each in so many cards at most, and counts them.
struct Search {
    seed: u64,
    cards: u64,
    told: u64,
    missed: u64,
}

impl Search {
    /// Tells by what a fault was found, and at which card or relation.
    fn tell(&mut self, name: &str, place: &str, finders: &[(String, Option<u64>)]) {
        let found = finders.iter().all(|(_, at)| at.is_some());
        let each = finders.iter().map(|(by, at)| match at {
            Some(at) => format!("{by} {at}"),
            None => format!("not by {by}"),
        });
        let each: Vec<String> = each.collect();
        let word = if found { "found" } else { "NOT FOUND" };
        println!("{word}: {name}{place} ({})", each.join(", "));
        self.told += 1;
        self.missed += u64::from(!found);
    }

    /// Each comparison by itself must find the fault at a card.
    fn cards(
        &mut self,
        (name, place): (&str, &str),
        by: &[Comparison],
        planted: Planted,
        generator: &Generator,
    ) {
        let mut checker = Checker::new(self.seed, generator);
        let mut finders: Vec<_> = by.iter().map(|by| (format!("{by:?}"), None)).collect();
        let mut card = 0;
        while card < self.cards && finders.iter().any(|(_, at)| at.is_none()) {
            card += 1;
            for (finder, result) in finders.iter_mut().zip(checker.card(by, planted)) {
                if result.is_err() {
                    finder.1.get_or_insert(card);
                }
            }
        }
        self.tell(name, place, &finders);
    }

    /// Each law by itself must find the fault of a walk on random relations.
    fn relations(&mut self, (name, fault, laws): (&str, walks::Fault, &[walks::Law])) {
        let broken = |&law| (format!("{law:?}"), walks::broken(self.seed, law, fault));
        let finders: Vec<_> = laws.iter().map(broken).collect();
        self.tell(name, ", any relation", &finders);
    }

    /// Faults of a walk: on random relations, along reads and along includes.
    fn walks(&mut self) {
        walks::WIDE_FAULTS.into_iter().for_each(|fault| self.relations(fault));
        for (name, fault, laws) in walks::FAULTS {
            self.relations((name, fault, laws));
            let reads = Planted { reads: fault, ..NONE };
            self.cards((name, ", reads"), &ALL, reads, &abi::generate);
            let includes = Planted { includes: fault, ..NONE };
            self.cards((name, ", includes"), &ALL, includes, &abi::generate);
        }
    }
}

/// The planted faults are found.
fn found(seed: u64, cards: u64) -> bool {
    let mut search = Search { seed, cards, told: 0, missed: 0 };
    search.walks();
    for (name, sum, by) in FAULTS {
        search.cards((name, ""), by, Planted { sum, ..NONE }, &abi::generate);
    }
    for (name, fault) in GENERATORS {
        let generator = wrong::by_relations(name, fault).generator;
        search.cards((name, ""), &ALL, NONE, &generator);
    }
    println!("{} planted faults, {} not found", search.told, search.missed);
    search.missed == 0
}

pub fn sums(seed: u64, cards: u64) -> bool {
    println!("seed {seed}, {cards} cards; generator: {}", abi::GENERATOR);
    walks::lawful(seed) && compared(seed, cards) && found(seed, cards.max(SOUGHT))
}
