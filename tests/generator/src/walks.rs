//! Sets completed along a relation by the definition: the join of the starting sets of
//! all that is reached; with a fault on demand. And what must hold of any relation
//! and any starting sets, on random ones.

use std::ops::BitOr;

use reference::answer::MAX_TRANSITIONS;
use reference::random::Random;

use crate::relations;

#[derive(Clone, Copy, PartialEq, Eq)]
pub enum Fault {
    None,
    NotItself,
    OneStep,
    Backwards,
    /// Each is visited once and joins the sets as they are at that time.
    CyclesApart,
    /// The search does not go on from what adds nothing to the join.
    NothingNew,
    HalfLost,
    /// Bits from 64 on are lost.
    LowWord,
    /// The search ends after so many.
    Short,
}

/// After so many a short search ends.
const SHORT: usize = 200;

/// A word as a set.
pub trait Word: Copy + Default + PartialEq + BitOr<Output = Self> {
    const BITS: usize;
    /// The lowest bits of a word.
    fn cut(word: u128) -> Self;
    /// The lower half of the bits.
    fn half(self) -> Self;
}

impl Word for u64 {
    const BITS: usize = 64;
    fn cut(word: u128) -> u64 {
        word as u64
    }
    fn half(self) -> u64 {
        self & u64::from(u32::MAX)
    }
}

impl Word for u128 {
    const BITS: usize = 128;
    fn cut(word: u128) -> u128 {
        word
    }
    fn half(self) -> u128 {
        self & u128::from(u64::MAX)
    }
}

/// All that is reached along a relation: where the search begins, then the others.
fn reached(related: &[Vec<usize>], from: usize) -> Vec<usize> {
    let mut seen = vec![false; related.len()];
    seen[from] = true;
    let mut all = vec![from];
    let mut at = 0;
    while at < all.len() {
        for &to in &related[all[at]] {
            if !std::mem::replace(&mut seen[to], true) {
                all.push(to);
            }
        }
        at += 1;
    }
    all
}

/// The join of what is reached without going on from what adds nothing.
fn while_new<S: Word>(related: &[Vec<usize>], from: usize, starts: &[S]) -> S {
    let mut joined = starts[from];
    let mut waiting = vec![from];
    while let Some(at) = waiting.pop() {
        for &to in &related[at] {
            if joined | starts[to] != joined {
                joined = joined | starts[to];
                waiting.push(to);
            }
        }
    }
    joined
}

fn reversed(related: &[Vec<usize>]) -> Vec<Vec<usize>> {
    let mut back = vec![Vec::new(); related.len()];
    for (from, related) in related.iter().enumerate() {
        related.iter().for_each(|&to| back[to].push(from));
    }
    back
}

/// The sets completed by iteration.
pub fn iterated<S: Word>(related: &[Vec<usize>], starts: &[S]) -> Vec<S> {
    let mut sets = starts.to_vec();
    relations::complete(related, &mut sets, false, false);
    sets
}

pub fn joined<S: Word>(one: &[S], two: &[S]) -> Vec<S> {
    one.iter().zip(two).map(|(&one, &two)| one | two).collect()
}

/// A relation, and what each reaches along it.
pub struct Walk {
    pub related: Vec<Vec<usize>>,
    reached: Vec<Vec<usize>>,
    fault: Fault,
}

impl Walk {
    pub fn new(related: Vec<Vec<usize>>, fault: Fault) -> Walk {
        let back = if fault == Fault::Backwards { reversed(&related) } else { vec![] };
        let all = (0..related.len()).map(|from| match fault {
            Fault::NotItself => reached(&related, from).split_off(1),
            Fault::OneStep => [from].iter().chain(&related[from]).copied().collect(),
            Fault::Backwards => reached(&back, from),
            Fault::Short => reached(&related, from).into_iter().take(SHORT).collect(),
            _ => reached(&related, from),
        });
        Walk { reached: all.collect(), related, fault }
    }

    /// The joins of the starting sets of all that is reached.
    pub fn complete<S: Word>(&self, starts: &[S]) -> Vec<S> {
        let join = |all: &Vec<usize>| all.iter().fold(S::default(), |set, &to| set | starts[to]);
        let mut sets: Vec<S> = match self.fault {
            Fault::CyclesApart => {
                let mut sets = starts.to_vec();
                relations::complete(&self.related, &mut sets, false, true);
                sets
            }
            Fault::NothingNew => {
                (0..starts.len()).map(|from| while_new(&self.related, from, starts)).collect()
            }
            _ => self.reached.iter().map(join).collect(),
        };
        if self.fault == Fault::HalfLost || self.fault == Fault::LowWord && S::BITS > 64 {
            sets.iter_mut().for_each(|set| *set = set.half());
        }
        sets
    }
}

/// What must hold of any relation and any two families of starting sets.
#[derive(Clone, Copy, Debug)]
pub enum Law {
    /// The sets are those of the iteration.
    Iterated,
    /// The completed sets of the join are the joins of the completed sets.
    Sum,
    /// The second time changes nothing.
    Twice,
}

const LAWS: [Law; 3] = [Law::Iterated, Law::Sum, Law::Twice];

/// The faults, each with the laws of which each by itself must find it.
pub const FAULTS: [(&str, Fault, &[Law]); 6] = [
    ("itself left out", Fault::NotItself, &[Law::Iterated, Law::Twice]),
    ("one step", Fault::OneStep, &[Law::Iterated, Law::Twice]),
    ("cycles do not share a set", Fault::CyclesApart, &[Law::Iterated, Law::Twice]),
    ("not on from what adds nothing", Fault::NothingNew, &LAWS),
    ("backwards", Fault::Backwards, &[Law::Iterated]),
    ("upper half of the sets lost", Fault::HalfLost, &[Law::Iterated]),
];

/// Faults that small relations or sets of 64 bits do not tell of: sought with random
/// relations only.
pub const WIDE_FAULTS: [(&str, Fault, &[Law]); 2] = [
    ("bits from 64 on lost", Fault::LowWord, &[Law::Iterated]),
    ("a search that ends", Fault::Short, &[Law::Iterated, Law::Twice]),
];

/// A relation of so many, with loops, cycles and some that nothing reaches; where
/// they are many, most of them reach hundreds.
fn relation(random: &mut Random, nodes: usize) -> Vec<Vec<usize>> {
    let most = if nodes > MOST { 4 } else { *random.pick(&[0, 1, 2, 4]) };
    let draw = |_| {
        let count = random.below(most + 1);
        (0..count).map(|_| random.below(nodes)).collect()
    };
    let mut related: Vec<Vec<usize>> = (0..nodes).map(draw).collect();
    if nodes > 0 && random.chance(30) {
        let mut cycle: Vec<usize> = (0..nodes).collect();
        random.shuffle(&mut cycle);
        cycle.truncate(random.between(1, nodes));
        for (at, &from) in cycle.iter().enumerate() {
            related[from].push(cycle[(at + 1) % cycle.len()]);
        }
    }
    related
}

/// Sets of so many bits. Of a thin family nearly all are empty, so that what comes
/// from far shows; where there are many nodes it is thin.
fn family<S: Word>(random: &mut Random, nodes: usize, width: usize) -> Vec<S> {
    let within = u128::MAX.checked_shr((128 - width) as u32).unwrap_or(0);
    let thin = nodes > MOST || random.chance(50);
    let mut word = || u128::from(random.draw()) << 64 | u128::from(random.draw());
    let mut set = |_| {
        let empty = thin && word() % nodes as u128 > 1;
        S::cut(if empty { 0 } else { word() & word() & word() & within })
    };
    (0..nodes).map(&mut set).collect()
}

/// Fails with the law that does not hold of a random relation and two families.
fn hold<S: Word>(random: &mut Random, nodes: usize, laws: &[Law], fault: Fault) -> Result<(), Law> {
    let walk = Walk::new(relation(random, nodes), fault);
    let width = random.between(0, S::BITS);
    let one: Vec<S> = family(random, nodes, width);
    let two: Vec<S> = family(random, nodes, width);
    let done = walk.complete(&one);
    let holds = |law: &Law| match law {
        Law::Iterated => done == iterated(&walk.related, &one),
        Law::Sum => walk.complete(&joined(&one, &two)) == joined(&done, &walk.complete(&two)),
        Law::Twice => walk.complete(&done) == done,
    };
    laws.iter().find(|law| !holds(law)).map_or(Ok(()), |&law| Err(law))
}

/// The same with sets of at most 64 or of at most 128 bits.
fn either(random: &mut Random, nodes: usize, laws: &[Law], fault: Fault) -> Result<(), Law> {
    if random.chance(50) {
        hold::<u64>(random, nodes, laws, fault)
    } else {
        hold::<u128>(random, nodes, laws, fault)
    }
}

/// So many relations of at most so many, and some as large as a card's may be.
const RELATIONS: u64 = 5_000;
const MOST: usize = 40;
const LARGE: u64 = 6;

/// The first random relation with which one of the laws does not hold.
fn first_broken(seed: u64, laws: &[Law], fault: Fault) -> Option<(u64, Law)> {
    let mut random = Random::new(seed);
    (1..=RELATIONS + LARGE).find_map(|number| {
        let nodes = if number > RELATIONS { MAX_TRANSITIONS } else { random.between(0, MOST) };
        either(&mut random, nodes, laws, fault).err().map(|law| (number, law))
    })
}

/// The first random relation with which a fault breaks a law.
pub fn broken(seed: u64, law: Law, fault: Fault) -> Option<u64> {
    first_broken(seed, &[law], fault).map(|(number, _)| number)
}

/// All laws hold of random relations.
pub fn lawful(seed: u64) -> bool {
    if let Some((number, law)) = first_broken(seed, &LAWS, Fault::None) {
        println!("FAILED at relation {number} of seed {seed}: {law:?}");
        return false;
    }
    println!("{RELATIONS} relations of up to {MOST} and {LARGE} of {MAX_TRANSITIONS}");
    true
}
