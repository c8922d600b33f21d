//! Single calls with their answers written out: a refusal, all sentences that may come, or
//! the length where these are many.

use reference::card::{parse, Card};
use reference::sample::{out, sample, Sampled};
use reference::uses::uses;

use super::calls::Call;
use super::sentences::Listings;
use crate::merges::cases::{bad_productions, bad_sizes};

pub enum Expected {
    /// The number, and the value.
    Refused(u64, u64),
    /// One of these, and no other sentence.
    OneOf(Vec<Vec<u8>>),
    /// Any of so many terminals.
    Length(usize),
}

use Expected::{Length, OneOf, Refused};

pub struct Case {
    pub name: String,
    card: Vec<u16>,
    /// The productions and the areas that it is tried with: each with each.
    productions: Vec<u64>,
    rooms: Vec<usize>,
    expected: Expected,
}

fn agreed(good: bool, what: &str) -> Result<(), String> {
    good.then_some(()).ok_or(what.into())
}

impl Case {
    /// Each production with each area.
    fn calls(&self) -> impl Iterator<Item = Call> + '_ {
        let all = self.productions.iter().flat_map(|&p| self.rooms.iter().map(move |&r| (p, r)));
        all.map(|(production, room)| Call { card: self.card.clone(), production, room })
    }

    /// The calls with the reference's answers, where these are as it is written out, and
    /// what is written out is right.
    pub fn answered(&self, listings: &mut Listings) -> Result<Vec<(Call, Sampled)>, String> {
        self.lists(listings)?;
        let answer = |call: Call| {
            let answer = sample(&call.card, call.production, call.room);
            let good = match (&self.expected, &answer) {
                (Refused(number, value), _) => out(&answer) == [*number, *value],
                (OneOf(lines), Ok(sample)) => lines.contains(sample),
                (Length(length), Ok(sample)) => sample.len() == *length,
                _ => false,
            };
            agreed(good, "the reference differs").map(|()| (call, answer))
        };
        self.calls().map(answer).collect()
    }

    /// A sample that was found is one of those that may come.
    pub fn sample(&self, call: &Call, found: &[u8]) -> Result<(), String> {
        let card = parse(&call.card).expect("a card without a fault of form");
        match &self.expected {
            OneOf(lines) => agreed(lines.iter().any(|line| line == found), "not written out"),
            _ => agreed(uses(&card, call.production as usize, found), "no such sentence"),
        }
    }

    /// What is written out are sentences that use the production, the first and the last of
    /// several, and where all short ones can be listed, all of the shortest ones.
    fn lists(&self, listings: &mut Listings) -> Result<(), String> {
        let OneOf(lines) = &self.expected else { return Ok(()) };
        let card = parse(&self.card).expect("a card without a fault of form");
        let listing = listings.below(card.terminals);
        let last = self.productions.len() - 1;
        for production in self.productions.iter().step_by(last.max(1)).map(|&p| p as usize) {
            let good = lines.iter().all(|line| uses(&card, production, line));
            agreed(good, "what is written out has no such derivation")?;
            if lines[0].len() <= listing.longest() {
                let listed = listing.using(&card, production);
                let shortest = listed.iter().filter(|line| line.len() == listed[0].len());
                let mut written: Vec<&[u8]> = lines.iter().map(Vec::as_slice).collect();
                written.sort_unstable();
                let good = shortest.copied().eq(written);
                agreed(good, "what is written out is not all that is shortest")?;
            }
        }
        Ok(())
    }
}

const ENOUGH: [usize; 3] = [255, 256, 1_000];

fn case(name: &str, card: &[u16], productions: &[u64], expected: Expected) -> Case {
    Case {
        name: name.into(),
        card: card.to_vec(),
        productions: productions.to_vec(),
        rooms: ENOUGH.to_vec(),
        expected,
    }
}

/// In other areas.
fn within(rooms: &[usize], case: Case) -> Case {
    Case { rooms: rooms.to_vec(), ..case }
}

fn numbers(terminals: usize, nonterminals: usize, productions: &[(usize, &[usize])]) -> Vec<u16> {
    let productions = productions.iter().map(|(left, right)| (*left, right.to_vec())).collect();
    Card { terminals, nonterminals, productions }.numbers()
}

/// A card, and for each production the sentences that may come.
fn each(
    name: &str,
    terminals: usize,
    nonterminals: usize,
    productions: &[(usize, &[usize], &[&[u8]])],
) -> Vec<Case> {
    let rules: Vec<_> = productions.iter().map(|(left, right, _)| (*left, *right)).collect();
    let card = numbers(terminals, nonterminals, &rules);
    let one = |(which, (_, _, lines)): (usize, &(usize, &[usize], &[&[u8]]))| {
        let lines = lines.iter().map(|line| line.to_vec()).collect();
        case(&format!("{name}, production {which}"), &card, &[which as u64], OneOf(lines))
    };
    productions.iter().enumerate().map(one).collect()
}

/// S -> S 1, S -> 2.
const A: [u16; 11] = [3, 1, 2, 3, 3, 3, 2, 1, 3, 1, 2];

fn small() -> Vec<Case> {
    let all = [
        each("A", 3, 1, &[(3, &[3, 1], &[&[2, 1]]), (3, &[2], &[&[2]])]),
        each("a list", 3, 2, &[(3, &[1, 4], &[&[1]]), (4, &[], &[&[1]]), (4, &[2, 4], &[&[1, 2]])]),
        each("one production", 2, 1, &[(2, &[1], &[&[1]])]),
        each("no terminals", 1, 1, &[(1, &[], &[&[]])]),
        each("not the shortest", 3, 1, &[(3, &[1], &[&[1]]), (3, &[2, 2, 2], &[&[2, 2, 2]])]),
        each("empty or not", 3, 1, &[(3, &[], &[&[]]), (3, &[2, 1], &[&[2, 1]])]),
        each("alike", 2, 1, &[(2, &[1], &[&[1]]), (2, &[1], &[&[1]])]),
        each("terminal 63", 64, 1, &[(64, &[63, 62, 1], &[&[63, 62, 1]])]),
    ];
    all.into_iter().flatten().collect()
}

/// Cards of which the maker makes no table.
fn conflicts() -> Vec<Case> {
    let pairs: &[&[u8]] = &[&[1, 1], &[1, 2], &[2, 1], &[2, 2]];
    let both: &[&[u8]] = &[&[1, 3, 4], &[2, 3, 5]];
    let other: &[&[u8]] = &[&[1, 3, 5], &[2, 3, 4]];
    let all = [
        each("S S", 3, 1, &[(3, &[3, 3], pairs), (3, &[1], &[&[1]]), (3, &[2], &[&[2]])]),
        each(
            "two ways, one with it",
            2,
            2,
            &[(2, &[1], &[&[1]]), (2, &[3], &[&[1]]), (3, &[1], &[&[1]])],
        ),
        each(
            "LR(1), not LALR(1)",
            6,
            3,
            &[
                (6, &[1, 7, 4], &[&[1, 3, 4]]),
                (6, &[2, 8, 4], &[&[2, 3, 4]]),
                (6, &[1, 8, 5], &[&[1, 3, 5]]),
                (6, &[2, 7, 5], &[&[2, 3, 5]]),
                (7, &[3], both),
                (8, &[3], other),
            ],
        ),
        each(
            "dangling else",
            4,
            1,
            &[(4, &[1, 4], &[&[1, 3]]), (4, &[1, 4, 2, 4], &[&[1, 3, 2, 3]]), (4, &[3], &[&[3]])],
        ),
        each(
            "two nonterminals, of which one is empty",
            3,
            2,
            &[(3, &[4, 4], &[&[]]), (4, &[], &[&[]]), (4, &[1], &[&[1]]), (4, &[2, 4], &[&[2]])],
        ),
    ];
    all.into_iter().flatten().collect()
}

fn cycles() -> Vec<Case> {
    let one: &[&[u8]] = &[&[1]];
    let all = [
        each("S -> S", 2, 1, &[(2, &[2], one), (2, &[1], one)]),
        each("S -> B, B -> S", 2, 2, &[(2, &[3], one), (3, &[2], one), (3, &[1], one)]),
        each(
            "a cycle of three, with nothing in it",
            1,
            3,
            &[(1, &[2], &[&[]]), (2, &[3], &[&[]]), (3, &[1], &[&[]]), (3, &[], &[&[]])],
        ),
        each(
            "a cycle beside empty nonterminals",
            3,
            2,
            &[
                (3, &[4, 3, 4], &[&[2]]),
                (3, &[2], &[&[2]]),
                (4, &[], &[&[2]]),
                (4, &[1], &[&[1, 2], &[2, 1]]),
            ],
        ),
        each(
            "a cycle below the start",
            4,
            3,
            &[
                (4, &[1, 5, 2], &[&[1, 3, 2]]),
                (5, &[6], &[&[1, 3, 2]]),
                (6, &[5], &[&[1, 3, 2]]),
                (6, &[3], &[&[1, 3, 2]]),
            ],
        ),
    ];
    all.into_iter().flatten().collect()
}

/// The start on right sides, and left sides on their own ones.
fn recurring() -> Vec<Case> {
    let all = [
        each("a start that recurs", 4, 1, &[(4, &[1, 4, 2], &[&[1, 3, 2]]), (4, &[3], &[&[3]])]),
        each(
            "a start that recurs below another",
            4,
            2,
            &[(4, &[1, 5], &[&[1, 3]]), (5, &[4, 2], &[&[1, 1, 3, 2]]), (5, &[3], &[&[1, 3]])],
        ),
        each(
            "only another production of the start recurs",
            3,
            1,
            &[(3, &[1, 3, 3], &[&[1, 2, 2]]), (3, &[2], &[&[2]])],
        ),
        each(
            "the left side on the right, once",
            4,
            2,
            &[(4, &[5], &[&[3]]), (5, &[1, 5, 2], &[&[1, 3, 2]]), (5, &[3], &[&[3]])],
        ),
        each(
            "the left side on the right, twice",
            3,
            2,
            &[(3, &[4], &[&[1]]), (4, &[4, 2, 4], &[&[1, 2, 1]]), (4, &[1], &[&[1]])],
        ),
        each(
            "the left side below its own production",
            4,
            3,
            &[
                (4, &[5], &[&[3]]),
                (5, &[1, 6], &[&[1, 3]]),
                (6, &[5], &[&[1, 3]]),
                (5, &[3], &[&[3]]),
                (6, &[2, 2, 6], &[&[1, 2, 2, 3]]),
            ],
        ),
    ];
    all.into_iter().flatten().collect()
}

/// Terminals before and behind the production's own.
fn contexts() -> Vec<Case> {
    let whole: &[&[u8]] = &[&[1, 3, 5, 7, 6, 4, 2]];
    let all = [
        each(
            "three levels",
            9,
            4,
            &[
                (9, &[1, 10, 2], whole),
                (10, &[3, 11, 4], whole),
                (11, &[5, 12, 6], whole),
                (12, &[7], whole),
                (12, &[8, 8], &[&[1, 3, 5, 8, 8, 6, 4, 2]]),
            ],
        ),
        each(
            "terminals before alone",
            5,
            3,
            &[
                (5, &[1, 2, 6], &[&[1, 2, 3, 4]]),
                (6, &[3, 7], &[&[1, 2, 3, 4]]),
                (7, &[4], &[&[1, 2, 3, 4]]),
            ],
        ),
        each(
            "terminals behind alone",
            5,
            3,
            &[
                (5, &[6, 1, 2], &[&[4, 3, 1, 2]]),
                (6, &[7, 3], &[&[4, 3, 1, 2]]),
                (7, &[4], &[&[4, 3, 1, 2]]),
            ],
        ),
        each(
            "nonterminals before and behind",
            6,
            4,
            &[
                (6, &[7, 8, 9], &[&[1, 3]]),
                (7, &[1], &[&[1, 3]]),
                (7, &[4, 4], &[&[4, 4, 3]]),
                (8, &[2], &[&[1, 2, 3]]),
                (8, &[], &[&[1, 3]]),
                (9, &[3], &[&[1, 3]]),
                (9, &[5, 5, 5], &[&[1, 5, 5, 5]]),
            ],
        ),
    ];
    all.into_iter().flatten().collect()
}

/// Several ways to the production.
fn ways() -> Vec<Case> {
    let two: &[&[u8]] = &[&[1, 4], &[2, 4]];
    let all = [
        each(
            "a longer context first",
            5,
            3,
            &[
                (5, &[1, 1, 1, 6], &[&[1, 1, 1, 4]]),
                (5, &[2, 7], &[&[2, 3, 4]]),
                (7, &[3, 6], &[&[2, 3, 4]]),
                (6, &[4], &[&[2, 3, 4]]),
            ],
        ),
        each(
            "fewer behind than before",
            4,
            2,
            &[
                (4, &[1, 1, 1, 5], &[&[1, 1, 1, 3]]),
                (4, &[5, 2, 2], &[&[3, 2, 2]]),
                (5, &[3], &[&[3, 2, 2]]),
            ],
        ),
        each(
            "fewer before than behind",
            4,
            2,
            &[
                (4, &[5, 1, 1, 1], &[&[3, 1, 1, 1]]),
                (4, &[2, 2, 5], &[&[2, 2, 3]]),
                (5, &[3], &[&[2, 2, 3]]),
            ],
        ),
        each(
            "two contexts as short",
            5,
            2,
            &[
                (5, &[1, 6], &[&[1, 4]]),
                (5, &[2, 6], &[&[2, 4]]),
                (6, &[4], two),
                (6, &[3, 3], &[&[1, 3, 3], &[2, 3, 3]]),
            ],
        ),
        each(
            "before or behind",
            3,
            2,
            &[(3, &[4, 2, 4], &[&[2]]), (4, &[], &[&[2]]), (4, &[1], &[&[1, 2], &[2, 1]])],
        ),
        each(
            "a sibling that is shorter by a longer derivation",
            4,
            5,
            &[
                (4, &[5, 6], &[&[3, 2]]),
                (5, &[1, 1, 1], &[&[1, 1, 1, 2]]),
                (5, &[7], &[&[3, 2]]),
                (7, &[8], &[&[3, 2]]),
                (8, &[3], &[&[3, 2]]),
                (6, &[2], &[&[3, 2]]),
            ],
        ),
        each(
            "a context that is shorter through more nonterminals",
            4,
            4,
            &[
                (4, &[1, 1, 1, 1, 7], &[&[1, 1, 1, 1]]),
                (4, &[5], &[&[2]]),
                (5, &[6], &[&[2]]),
                (6, &[2, 7], &[&[2]]),
                (7, &[3], &[&[2, 3]]),
                (7, &[], &[&[2]]),
            ],
        ),
    ];
    all.into_iter().flatten().collect()
}

/// Productions inside what is empty.
fn empties() -> Vec<Case> {
    let nothing: &[&[u8]] = &[&[]];
    let all = [
        each(
            "empty below empty",
            3,
            3,
            &[
                (3, &[4, 5], nothing),
                (4, &[5, 5], nothing),
                (5, &[], nothing),
                (5, &[1], &[&[1]]),
                (4, &[2, 2], &[&[2, 2]]),
            ],
        ),
        each(
            "empty between terminals",
            4,
            3,
            &[
                (4, &[1, 5, 2], &[&[1, 2]]),
                (5, &[6, 6, 6], &[&[1, 2]]),
                (6, &[], &[&[1, 2]]),
                (6, &[3, 5], &[&[1, 3, 2]]),
            ],
        ),
        each(
            "empty only by the production that is not named",
            2,
            2,
            &[(2, &[3, 3], nothing), (3, &[1, 3], &[&[1]]), (3, &[], nothing)],
        ),
    ];
    all.into_iter().flatten().collect()
}

/// Many symbols that are empty.
fn much_empty() -> Vec<Case> {
    let every: Vec<u64> = (0..60).collect();
    let mut cases = Vec::new();
    for times in [1, 2, 8] {
        let name = format!("sixty nonterminals, each {times} times the next, all empty");
        let card = doubling(60, times, 0);
        cases.push(within(&[255], case(&name, &card, &every, OneOf(vec![vec![]]))));
    }
    let wide = numbers(2, 2, &[(2, &[3; 510]), (3, &[]), (3, &[1])]);
    cases.push(case("510 symbols that are empty", &wide, &[0, 1], OneOf(vec![vec![]])));
    cases.push(case("one of 510 that is not", &wide, &[2], OneOf(vec![vec![1]])));
    cases
}

/// So many nonterminals, each so many times the next; the last is a string of ones.
fn doubling(nonterminals: usize, times: usize, last: usize) -> Vec<u16> {
    let right = |j| if j == nonterminals - 1 { vec![1; last] } else { vec![3 + j; times] };
    let productions = (0..nonterminals).map(|j| (2 + j, right(j))).collect();
    Card { terminals: 2, nonterminals, productions }.numbers()
}

/// The same with a few ones beside each of the next.
fn digits(times: usize, digits: &[usize]) -> Vec<u16> {
    let next = |j: usize| vec![3 + j; if j + 1 < digits.len() { times } else { 0 }];
    let right = |j: usize| [next(j), vec![1; digits[j]]].concat();
    let productions = (0..digits.len()).map(|j| (2 + j, right(j))).collect();
    Card { terminals: 2, nonterminals: digits.len(), productions }.numbers()
}

/// Nonterminals that double, and lengths that are small in a few bits.
fn doubled() -> Vec<Case> {
    let ones = |length: usize| OneOf(vec![vec![1; length]]);
    let mut cases = Vec::new();
    for n in 1..=60 {
        let every: Vec<u64> = (0..n as u64).collect();
        let expected = if n <= 8 { ones(1 << (n - 1)) } else { Refused(49, 0) };
        let card = doubling(n, 2, 1);
        cases.push(within(&[255], case(&format!("{n} double"), &card, &every, expected)));
    }
    let far = |name: &str, card: &[u16]| case(name, card, &[0, 1, 8], Refused(49, 0));
    let none = [0; 61];
    let with = |count: usize, first: usize| [&[first], &none[..count - 2], &[1]].concat();
    cases.extend([
        case("127 doubled and 1", &digits(2, &[1; 8]), &[0, 3, 7], ones(255)),
        case("126 doubled and 2", &digits(2, &[2, 0, 1, 1, 1, 1, 1, 1]), &[0, 7], ones(254)),
        far("256 of nine", &digits(2, &with(9, 0))),
        far("257 of nine", &digits(2, &with(9, 1))),
        far("2^16", &digits(2, &with(17, 0))),
        far("2^16 and 7", &digits(2, &with(17, 7))),
        far("2^16 and 255", &digits(2, &with(17, 255))),
        far("2^32", &digits(4, &with(17, 0))),
        far("2^32 and 100", &digits(4, &with(17, 100))),
        far("2^59", &digits(2, &with(60, 0))),
        far("2^64", &digits(4, &with(33, 0))),
        far("2^64 and 5", &digits(4, &with(33, 5))),
        far("2^128", &digits(8, &[&with(43, 0)[..42], &[4]].concat())),
        far("8^59", &doubling(60, 8, 1)),
    ]);
    cases
}

/// Sixty nonterminals, each the next one between some terminals, the last one terminals;
/// the productions in this order or from the last.
fn nested(before: &[usize], behind: &[usize], last: &[usize], backwards: bool) -> Vec<u16> {
    let right = |j| match j {
        59 => last.to_vec(),
        _ => [before, &[5 + j], behind].concat(),
    };
    let mut productions: Vec<_> = (0..60).map(|j| (4 + j, right(j))).collect();
    if backwards {
        productions.reverse();
    }
    Card { terminals: 4, nonterminals: 60, productions }.numbers()
}

/// Contexts of 59 productions.
fn chains() -> Vec<Case> {
    let every: Vec<u64> = (0..60).collect();
    let mut cases = Vec::new();
    let mut nest = |name: &str, before: &[usize], behind: &[usize], last: usize| {
        let line = |symbols: &[usize]| symbols.iter().map(|&m| m as u8).collect::<Vec<u8>>();
        let parts = [line(before).repeat(59), vec![3; last], line(behind).repeat(59)];
        let expected = || match parts.concat() {
            long if long.len() > 255 => Refused(49, 0),
            sample => OneOf(vec![sample]),
        };
        for backwards in [false, true] {
            let card = nested(before, behind, &vec![3; last], backwards);
            let name = format!("{name}, {}", if backwards { "from the last" } else { "in order" });
            cases.push(within(&[255], case(&name, &card, &every, expected())));
        }
    };
    nest("59 unit productions", &[], &[], 1);
    nest("59 unit productions, empty", &[], &[], 0);
    nest("59 terminals before", &[1], &[], 1);
    nest("59 terminals behind", &[], &[2], 1);
    nest("59 terminals before and behind", &[1], &[2], 1);
    nest("118 terminals before and behind", &[1, 3], &[2, 1], 2);
    nest("255 with 59 before and behind", &[1], &[2], 137);
    nest("256 with 59 before and behind", &[1], &[2], 138);
    nest("255 with 236 around", &[1, 1], &[2, 2], 19);
    nest("256 with 236 around", &[1, 1], &[2, 2], 20);
    nest("295 around", &[1, 1, 1], &[2, 2], 0);
    cases
}

/// 255 terminals, and 256.
fn limits() -> Vec<Case> {
    let long = |length: usize| numbers(2, 1, &[(2, &vec![1; length])]);
    let beside = |length: usize| numbers(3, 1, &[(3, &[1]), (3, &vec![2; length])]);
    let around = |before: usize, own: usize, behind: usize| {
        let right = [vec![1; before], vec![4], vec![1; behind]].concat();
        numbers(3, 2, &[(3, &right), (4, &vec![2; own]), (4, &[])])
    };
    let line = |before, own, behind| {
        OneOf(vec![[vec![1; before], vec![2; own], vec![1; behind]].concat()])
    };
    let ones = |length| OneOf(vec![vec![1; length]]);
    let over = || Refused(49, 0);
    vec![
        case("254 terminals", &long(254), &[0], ones(254)),
        case("255 terminals", &long(255), &[0], ones(255)),
        case("256 terminals", &long(256), &[0], over()),
        case("257 terminals", &long(257), &[0], over()),
        case("511 terminals", &long(511), &[0], over()),
        case("512 terminals", &long(512), &[0], over()),
        case("1 beside 255", &beside(255), &[0], ones(1)),
        case("255 beside 1", &beside(255), &[1], line(0, 255, 0)),
        case("1 beside 256", &beside(256), &[0], ones(1)),
        case("256 beside 1", &beside(256), &[1], over()),
        case("1 beside 511", &beside(511), &[0], ones(1)),
        case("511 beside 1", &beside(511), &[1], over()),
        case("1 before 254", &around(1, 254, 0), &[1], line(1, 254, 0)),
        case("1 before 255", &around(1, 255, 0), &[1], over()),
        case("1 behind 254", &around(0, 254, 1), &[1], line(0, 254, 1)),
        case("1 behind 255", &around(0, 255, 1), &[1], over()),
        case("100 around 155", &around(60, 155, 40), &[1], line(60, 155, 40)),
        case("100 around 156", &around(60, 156, 40), &[1], over()),
        case("100 around what may be empty", &around(60, 156, 40), &[0, 2], ones(100)),
        case("255 around nothing", &around(200, 1, 55), &[0, 2], ones(255)),
        case("255 around 1", &around(200, 1, 55), &[1], over()),
        case("256 around nothing", &around(200, 1, 56), &[0, 1, 2], over()),
    ]
}

/// A longer sentence for one production than for the others, and many that may come.
fn many() -> Vec<Case> {
    // 5 is 1 or 2, and S a row of them
    let row = |length: usize| numbers(3, 2, &[(3, &vec![4; length]), (4, &[1]), (4, &[2])]);
    let (trees, sums) = (
        numbers(3, 1, &[(3, &[3, 3, 3]), (3, &[1]), (3, &[2])]),
        numbers(4, 2, &[(4, &[4, 1, 5]), (4, &[5]), (5, &[2]), (5, &[3]), (5, &[2, 4, 3])]),
    );
    vec![
        case("a row of 255", &row(255), &[0, 1, 2], Length(255)),
        case("a row of 256", &row(256), &[0, 1, 2], Refused(49, 0)),
        case("a row of 20", &row(20), &[0, 1, 2], Length(20)),
        case("trees", &trees, &[0], Length(3)),
        case("sums", &sums, &[0, 4], Length(3)),
    ]
}

/// T 64, N 60, P 128 and L 512. Nonterminal j, from 0 to 58, is the next one between j + 1
/// and 63 - j; the last one is 1 or, by productions 60 and 61, a row of 137 or 138. Then
/// come 59 productions of one terminal, 1, for nonterminals 0 to 58, and seven empty ones
/// for the last but one.
fn largest() -> Vec<Case> {
    let mut productions: Vec<(usize, Vec<usize>)> =
        (0..59).map(|j| (64 + j, vec![j + 1, 65 + j, 63 - j])).collect();
    productions.extend([(123, vec![1]), (123, vec![2; 137]), (123, vec![3; 138])]);
    productions.extend((0..59).map(|j| (64 + j, vec![1])));
    productions.extend((0..7).map(|_| (122, vec![])));
    let card = Card { terminals: 64, nonterminals: 60, productions }.numbers();
    assert_eq!(card[..4], [64, 60, 128, 512]);
    let around = |count: usize, own: Vec<u8>| {
        let before: Vec<u8> = (1..=count as u8).collect();
        let behind: Vec<u8> = (64 - count as u8..=63).collect();
        OneOf(vec![[before, own, behind].concat()])
    };
    let production = |which: usize| match which {
        // The last but one may be empty, and any other is 1.
        57 => around(58, vec![]),
        0..=58 => around(which + 1, vec![1]),
        59 => around(59, vec![1]),
        60 => around(59, vec![2; 137]),
        61 => Refused(49, 0),
        62..=120 => around(which - 62, vec![1]),
        _ => around(58, vec![]),
    };
    let every = (0..128).map(|which| {
        let name = format!("the largest sizes, production {which}");
        within(&[255, 256], case(&name, &card, &[which as u64], production(which)))
    });
    let past = case("the largest sizes, no such production", &card, &PAST_128, Refused(48, 0));
    every.chain([past]).collect()
}

const PAST_128: [u64; 8] = [128, 129, 255, 256, 65_535, 65_536, 1 << 32, u64::MAX];

/// Numbers of productions: A has two.
fn named() -> Vec<Case> {
    let mut past = vec![2, 3, 127, 128, 255, 65_535, u64::MAX, u64::MAX - 1, 1 << 31, 1 << 40];
    past.extend([8, 16, 32, 63].iter().flat_map(|&bits| [1 << bits, (1 << bits) + 1]));
    let one = numbers(2, 1, &[(2, &[1])]);
    let empty = numbers(2, 1, &[(2, &[])]);
    vec![
        case("no such production of A", &A, &past, Refused(48, 0)),
        case("no such production of one", &one, &[1, 2, 256, 65_536, 1 << 32], Refused(48, 0)),
        case("no such production, no symbols", &empty, &[1, 1 << 63], Refused(48, 0)),
        case("no symbols", &empty, &[0], OneOf(vec![vec![]])),
    ]
}

/// Areas of all lengths.
fn areas() -> Vec<Case> {
    let short = [0, 1, 2, 3, 127, 128, 253, 254];
    let more = [255, 256, 257, 300, 510, 511, 512, 1_000, 65_535, 65_536, 65_790, 65_791, 66_000];
    let long = |length: usize| numbers(2, 1, &[(2, &vec![1; length])]);
    let sample = || OneOf(vec![vec![2, 1]]);
    vec![
        within(&short, case("short areas", &A, &[0, 1], Refused(47, 0))),
        within(&more, case("areas that are long enough", &A, &[0], sample())),
        within(
            &more,
            case("areas for nothing", &numbers(2, 1, &[(2, &[])]), &[0], OneOf(vec![vec![]])),
        ),
        within(&more, case("areas for 255", &long(255), &[0], OneOf(vec![vec![1; 255]]))),
        within(&more, case("areas for 256", &long(256), &[0], Refused(49, 0))),
        within(&more, case("areas for no such production", &A, &[2, 1 << 32], Refused(48, 0))),
    ]
}

/// Cards that 4 to 10 refuse, with areas that are long enough and others, and productions
/// that they might have and others.
fn refused() -> Vec<Case> {
    let numbers = [0, 1, 2, 127, 128, 65_536, 1 << 32, u64::MAX];
    let bad = [bad_sizes(), bad_productions()].concat();
    let each = bad.into_iter().flat_map(|(name, number, value, card)| {
        let short = case(&format!("{name}, a short area"), &card, &numbers, Refused(47, 0));
        let told = case(name, &card, &numbers, Refused(number, value));
        [told, within(&[0, 1, 254], short)]
    });
    each.collect()
}

/// Which refusal comes first.
fn orders() -> Vec<Case> {
    let long = numbers(2, 1, &[(2, &[1; 256])]);
    // S -> 1 of 256 terminals, and 3, which is not reached
    let useless = numbers(2, 2, &[(2, &[1; 256]), (3, &[1])]);
    let endless = numbers(3, 2, &[(3, &[1]), (3, &[4]), (4, &[4, 2])]);
    let short = [0, 100, 254];
    vec![
        within(&short, case("47 before 48", &A, &[2, 65_536, u64::MAX], Refused(47, 0))),
        within(&short, case("47 before 49", &long, &[0], Refused(47, 0))),
        within(&short, case("47 before 10 and 49", &useless, &[0, 1, 2], Refused(47, 0))),
        case("10 before 48", &useless, &[2, 3, u64::MAX], Refused(10, 3)),
        case("10 before 49", &useless, &[0], Refused(10, 3)),
        case("10, and a sample for another production", &useless, &[1], Refused(10, 3)),
        case("10 of what derives nothing", &endless, &[0, 1, 2, 3], Refused(10, 4)),
        case("48 before 49", &long, &[1, 2, 256, 1 << 32], Refused(48, 0)),
        case("49 last", &long, &[0], Refused(49, 0)),
    ]
}

/// Cards that the maker refuses with 11 and 12.
fn makers() -> Vec<Case> {
    let states = numbers(3, 1, &[(3, &[1]), (3, &[2; 300])]);
    // A chain of 60, entered again behind 1 to 39: 60 transitions each
    let mut productions: Vec<(usize, Vec<usize>)> =
        (0..59).map(|j| (41 + j, vec![42 + j])).collect();
    productions.extend((1..40).map(|m| (100, vec![m, 41])));
    productions.push((100, vec![40]));
    let crowded = Card { terminals: 41, nonterminals: 60, productions }.numbers();
    vec![
        case("over 256 states", &states, &[0], OneOf(vec![vec![1]])),
        case("over 2,048 transitions", &crowded, &[0, 58, 98], OneOf(vec![vec![40]])),
        case("over 2,048 transitions, behind 7", &crowded, &[65], OneOf(vec![vec![7, 40]])),
    ]
}

/// The quicker ones first.
pub fn cases() -> Vec<Case> {
    let samples = [small(), conflicts(), cycles(), recurring(), contexts(), ways(), empties()];
    let refused = [areas(), named(), orders(), refused(), makers()];
    let sizes = [limits(), many(), much_empty(), doubled(), largest(), chains()];
    samples.into_iter().chain(refused).chain(sizes).flatten().collect()
}
