//! Single cards with their lengths written out.

use reference::card::{Card, MAX_NONTERMINALS};

use super::Expected;

pub struct Case {
    pub name: &'static str,
    pub card: Vec<u16>,
    pub expected: Expected,
}

/// A card with the lengths of its nonterminals.
fn case(name: &'static str, card: Vec<u16>, lengths: impl AsRef<[u16]>) -> Case {
    let lengths = lengths.as_ref();
    let mut all = [65_535; MAX_NONTERMINALS];
    all[..lengths.len()].copy_from_slice(lengths);
    Case { name, card, expected: Ok(all) }
}

/// Nonterminals are A, B, .. and terminals a, b, c.
fn letters(nonterminals: usize, productions: &[(char, &str)]) -> Vec<u16> {
    let symbol = |letter: char| match letter {
        'A'..='Z' => 4 + (letter as usize - 'A' as usize),
        _ => 1 + (letter as usize - 'a' as usize),
    };
    let production =
        |(left, right): &(char, &str)| (symbol(*left), right.chars().map(symbol).collect());
    let productions = productions.iter().map(production).collect();
    Card { terminals: 4, nonterminals, productions }.numbers()
}

/// The only terminal of the cards below.
const ONE: usize = 1;

/// Their nonterminal number `j`.
fn symbol(j: usize) -> usize {
    2 + j
}

/// A card with these productions, whose left sides are numbers of nonterminals.
fn card(nonterminals: usize, productions: Vec<(usize, Vec<usize>)>) -> Vec<u16> {
    let productions = productions.into_iter().map(|(j, right)| (symbol(j), right)).collect();
    Card { terminals: 2, nonterminals, productions }.numbers()
}

/// One production for each nonterminal; the last one's is one terminal.
fn each(nonterminals: usize, right: impl Fn(usize) -> Vec<usize>) -> Vec<u16> {
    let last = nonterminals - 1;
    card(nonterminals, (0..last).map(|j| (j, right(j))).chain([(last, vec![ONE])]).collect())
}

/// Each nonterminal so many times the next.
fn times(nonterminals: usize, times: usize) -> Vec<u16> {
    each(nonterminals, |j| vec![symbol(j + 1); times])
}

/// Nonterminal 0 twice the next and so many terminals, one production for each
/// number; the others twice the next and one terminal.
fn sixteen(terminals: &[usize]) -> Vec<u16> {
    let twice = |j, more| (j, [vec![symbol(j + 1); 2], vec![ONE; more]].concat());
    let first = terminals.iter().map(|&more| twice(0, more));
    card(16, first.chain((1..15).map(|j| twice(j, 1))).chain([(15, vec![ONE])]).collect())
}

const POWERS: [u16; 16] =
    [32_768, 16_384, 8_192, 4_096, 2_048, 1_024, 512, 256, 128, 64, 32, 16, 8, 4, 2, 1];
const ONE_LESS: [u16; 15] =
    [32_767, 16_383, 8_191, 4_095, 2_047, 1_023, 511, 255, 127, 63, 31, 15, 7, 3, 1];
const POWERS_OF_FOUR: [u16; 8] = [16_384, 4_096, 1_024, 256, 64, 16, 4, 1];

/// These lengths, and behind them others.
fn and(first: &[u16], others: &[u16]) -> Vec<u16> {
    [first, others].concat()
}

/// Lengths about the cap and above it.
fn long() -> Vec<Case> {
    let square = |outer, inner| card(2, vec![(0, vec![symbol(1); outer]), (1, vec![ONE; inner])]);
    vec![
        case("sixteen, each twice the next", times(16, 2), POWERS),
        case("seventeen, each twice the next", times(17, 2), and(&[65_535], &POWERS)),
        case("eighteen, each twice the next", times(18, 2), and(&[65_535; 2], &POWERS)),
        case("sixty, each twice the next", times(60, 2), and(&[65_535; 44], &POWERS)),
        case("sixty, each four times", times(60, 4), and(&[65_535; 52], &POWERS_OF_FOUR)),
        case("65,534", sixteen(&[0]), and(&[65_534], &ONE_LESS)),
        case("65,535", sixteen(&[1]), and(&[65_535], &ONE_LESS)),
        case("65,536", sixteen(&[2]), and(&[65_535], &ONE_LESS)),
        case("65,537", sixteen(&[3]), and(&[65_535], &ONE_LESS)),
        case("65,534 or 65,535", sixteen(&[0, 1]), and(&[65_534], &ONE_LESS)),
        case("65,536 or 65,534", sixteen(&[2, 0]), and(&[65_534], &ONE_LESS)),
        case("65,536 or 65,535", sixteen(&[2, 1]), and(&[65_535], &ONE_LESS)),
        case("254 times 258", square(254, 258), [65_532, 258]),
        case("255 times 257", square(255, 257), [65_535, 257]),
        case("256 times 256", square(256, 256), [65_535, 256]),
    ]
}

fn small() -> Vec<Case> {
    let case = |name, productions: &[(char, &str)], lengths: &[u16]| {
        case(name, letters(lengths.len(), productions), lengths)
    };
    let cycle = [('A', "B"), ('B', "C"), ('C', "A")];
    let with_exit = |right| [&cycle[..], &[('B', right)]].concat();
    vec![
        case("one empty right side", &[('A', "")], &[0]),
        case("one terminal", &[('A', "b")], &[1]),
        case("only itself", &[('A', "A")], &[65_535]),
        case("itself and a terminal", &[('A', "Aa")], &[65_535]),
        case("no production", &[('A', "a")], &[1, 65_535]),
        case("nothing derived, or a", &[('A', "B"), ('A', "a"), ('B', "B")], &[1, 65_535]),
        case("nothing derived behind a", &[('A', "aB"), ('B', "Bc")], &[65_535, 65_535]),
        case("each needs the other", &[('A', "Ba"), ('B', "Ab")], &[65_535, 65_535]),
        case("a unit cycle", &cycle, &[65_535, 65_535, 65_535]),
        case("a unit cycle with an exit", &with_exit("aa"), &[2, 2, 2]),
        case("a unit cycle with an empty exit", &with_exit(""), &[0, 0, 0]),
        case("not reached", &[('A', "a"), ('B', "abc")], &[1, 3]),
        case("the shorter one first", &[('A', "a"), ('A', "abc")], &[1]),
        case("the shorter one last", &[('A', "abc"), ('A', "a")], &[1]),
        case("more symbols, no terminal", &[('A', "a"), ('A', "BBB"), ('B', "")], &[0, 0]),
        case("all empty", &[('A', "BC"), ('B', ""), ('C', "BB")], &[0, 0, 0]),
        case("twice itself, or empty", &[('A', "AA"), ('A', "")], &[0]),
        case("itself inside, or c", &[('A', "aAb"), ('A', "c")], &[1]),
        case("three times the same", &[('A', "BBB"), ('B', "aa")], &[6, 2]),
        case("through each other", &[('A', "aBcB"), ('B', "bb"), ('B', "Ab")], &[6, 2]),
        case(
            "the shorter one found later",
            &[('A', "abc"), ('A', "B"), ('B', "C"), ('C', "D"), ('D', "a")],
            &[1, 1, 1, 1],
        ),
    ]
}

/// Cards at the limits T = 64, N = 60, P = 128 and L = 512.
fn limits() -> Vec<Case> {
    let many = |count, right: Vec<usize>| card(2, vec![(0, vec![symbol(1); count]), (1, right)]);
    let alone = |right| card(2, vec![(0, right)]);
    let mut on_top = vec![(0, vec![symbol(1); 479])];
    on_top.extend((1..17).map(|j| (j, vec![symbol(j + 1); 2])));
    on_top.push((17, vec![ONE]));
    let four = |count: usize| (0..count).map(|_| (0, vec![ONE; 4])).collect::<Vec<_>>();
    let last_shorter = [four(127), vec![(0, vec![ONE])]].concat();
    let only_last = card(60, vec![(59, vec![])]);
    vec![
        case("512 terminals", alone(vec![ONE; 512]), [512, 65_535]),
        case("512 of 65,535", alone(vec![symbol(1); 512]), [65_535, 65_535]),
        case("512 of 0", many(512, vec![]), [0, 0]),
        case("511 of 1", many(511, vec![ONE]), [511, 1]),
        case("479 of 65,536", card(18, on_top), and(&[65_535; 2], &POWERS)),
        case("128 productions", card(1, four(128)), [4]),
        case("128 productions, the last is the shortest", card(1, last_shorter), [1]),
        case("60 nonterminals, one production", only_last, and(&[65_535; 59], &[0])),
        case("64 terminals", vec![64, 2, 2, 3, 65, 64, 1, 2, 63, 65, 1], [2, 1]),
        case("1 terminal", vec![1, 2, 2, 2, 1, 2, 2, 0, 2, 2], [0, 0]),
    ]
}

/// Sixty nonterminals in a chain: as many rounds in one of two orders, whichever way a round goes.
fn chains() -> Vec<Case> {
    let next = |more: usize| each(60, |j| [vec![symbol(j + 1)], vec![ONE; more]].concat());
    let before = |more: usize| {
        let right = |j| [vec![symbol(j - 1)], vec![ONE; more]].concat();
        card(60, [(0, vec![ONE])].into_iter().chain((1..60).map(|j| (j, right(j)))).collect())
    };
    let ring = |end: Vec<usize>| {
        card(60, (0..59).map(|j| (j, vec![symbol(j + 1)])).chain([(59, end)]).collect())
    };
    let or_four = (0..59).flat_map(|j| [(j, vec![ONE; 4]), (j, vec![symbol(j + 1)])]);
    vec![
        case("each the next and one more", next(1), (1..=60).rev().collect::<Vec<_>>()),
        case("each the one before and one more", before(1), (1..=60).collect::<Vec<_>>()),
        case("each the next", next(0), [1; 60]),
        case("each the one before", before(0), [1; 60]),
        case("each the next, the last one empty", ring(vec![]), [0; 60]),
        case("each the next, the last one the first", ring(vec![symbol(0)]), [65_535; 60]),
        case(
            "each the next or four terminals",
            card(60, or_four.chain([(59, vec![ONE])]).collect()),
            [1; 60],
        ),
    ]
}

/// Cards with a fault of form.
fn refused() -> Vec<Case> {
    let case = |name, fault, card: &[u16]| Case { name, card: card.to_vec(), expected: Err(fault) };
    vec![
        case("no number", 4, &[]),
        case("three numbers", 4, &[2, 1, 1]),
        case("no terminal", 5, &[0, 1, 1, 0, 0, 0]),
        case("65 terminals", 5, &[65, 1, 1, 0, 65, 0]),
        case("61 nonterminals", 5, &[2, 61, 1, 0, 2, 0]),
        case("129 productions", 5, &[2, 1, 129, 0]),
        case("513 symbols", 5, &[2, 1, 1, 513, 2, 513]),
        case("one number short", 6, &[2, 1, 1, 1, 2, 1]),
        case("one number more", 6, &[2, 1, 1, 1, 2, 1, 1, 1]),
        case("a terminal on the left", 7, &[2, 1, 1, 1, 1, 2, 1]),
        case("a left side past the last", 7, &[2, 1, 1, 1, 3, 1, 1]),
        case("lengths that add up to more", 8, &[2, 1, 1, 1, 2, 2, 1]),
        case("lengths that add up in 16 bits", 8, &[2, 1, 2, 0, 2, 2, 65_535, 1]),
        case("lengths and a symbol", 8, &[2, 1, 1, 1, 2, 0, 0]),
        case("symbol 0", 9, &[2, 1, 1, 1, 2, 1, 0]),
        case("a symbol past the last", 9, &[2, 1, 1, 1, 2, 1, 3]),
    ]
}

pub fn cases() -> Vec<Case> {
    [long(), small(), limits(), chains(), refused()].into_iter().flatten().collect()
}
