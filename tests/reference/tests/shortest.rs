//! The shortest lengths against all strings of terminals that small cards derive,
//! and against what the reference knows of nullable and productive nonterminals.

use std::collections::HashSet;

use reference::card::Card;
use reference::grammar::{productive, Grammar};
use reference::random::Random;
use reference::shortest::{capped, lengths, Length, CAP};

/// A random card, perhaps with useless nonterminals.
fn card(random: &mut Random, terminals: usize, most: usize) -> Card {
    let n = random.between(1, most);
    let (own, empty) = (*random.pick(&[0, 30, 60]), random.chance(50));
    let productions = (0..random.between(1, 2 * n + 1))
        .map(|_| {
            let length = random.between(usize::from(!empty), 3);
            let symbol = |random: &mut Random| match random.chance(own) {
                true => random.between(1, terminals - 1),
                false => random.between(1, terminals + n - 1),
            };
            (terminals + random.below(n), (0..length).map(|_| symbol(random)).collect())
        })
        .collect();
    Card { terminals, nonterminals: n, productions }
}

type Strings = HashSet<Vec<usize>>;

/// The strings of a right side, of at most `longest` terminals.
fn joined(right: &[usize], found: &[Strings], longest: usize) -> Strings {
    right.iter().fold(Strings::from([vec![]]), |before, &symbol| {
        let pairs = before.iter().flat_map(|one| found[symbol].iter().map(move |two| (one, two)));
        let short = pairs.filter(|(one, two)| one.len() + two.len() <= longest);
        short.map(|(one, two)| [one.as_slice(), two].concat()).collect()
    })
}

/// The strings of at most `longest` terminals that each symbol derives by trees of at
/// most so many levels. A shortest one has a tree in which no nonterminal stands below
/// itself, so one level for each nonterminal is enough for it.
fn strings(card: &Card, levels: usize, longest: usize) -> Vec<Strings> {
    let own = |s| if card.is_terminal(s) { Strings::from([vec![s]]) } else { Strings::new() };
    let mut found: Vec<Strings> = (0..card.symbols()).map(own).collect();
    for _ in 0..levels {
        let mut next = found.clone();
        for (left, right) in &card.productions {
            next[*left].extend(joined(right, &found, longest));
        }
        found = next;
    }
    found
}

/// Compares the lengths of a card with its strings; says how many of them were found.
fn compare(card: &Card, longest: usize) -> usize {
    let lengths = lengths(card);
    let strings = strings(card, card.nonterminals + 2, longest);
    let mut seen = 0;
    for symbol in card.terminals..card.symbols() {
        let shortest = strings[symbol].iter().map(|string| string.len() as Length).min();
        let known = lengths[symbol].filter(|&length| length <= longest as Length);
        assert_eq!(known, shortest, "{card:?}, symbol {symbol}");
        seen += usize::from(shortest.is_some());
    }
    seen
}

#[test]
fn as_all_strings_of_three_terminals() {
    let mut random = Random::new(8);
    let seen: usize = (0..5_000).map(|_| compare(&card(&mut random, 4, 4), 6)).sum();
    assert!(seen > 5_000, "{seen}");
}

/// With one terminal the strings are few: no length of these cards is above 3^4.
#[test]
fn as_all_strings_of_one_terminal() {
    let mut random = Random::new(9);
    let seen: usize = (0..5_000).map(|_| compare(&card(&mut random, 2, 4), 81)).sum();
    assert!(seen > 5_000, "{seen}");
}

#[test]
fn zero_where_nullable_and_none_where_not_productive() {
    let mut random = Random::new(10);
    let mut seen = [0; 3];
    for _ in 0..20_000 {
        let terminals = random.between(2, 5);
        let card = card(&mut random, terminals, 12);
        let (lengths, productive) = (lengths(&card), productive(&card));
        let nullable = Grammar::new(card.clone()).nullable;
        for symbol in 0..card.symbols() {
            assert_eq!(lengths[symbol] == Some(0), nullable[symbol], "{card:?} {symbol}");
            assert_eq!(lengths[symbol].is_some(), productive[symbol], "{card:?} {symbol}");
            seen[usize::from(productive[symbol]) + usize::from(nullable[symbol])] += 1;
        }
    }
    assert!(seen.iter().all(|&count| count > 10_000), "{seen:?}");
}

/// Nonterminals of which each is so many times the next; the last is one terminal.
fn times(nonterminals: usize, times: usize) -> Card {
    let right = |j| if j == nonterminals - 1 { vec![1] } else { vec![3 + j; times] };
    let productions = (0..nonterminals).map(|j| (2 + j, right(j))).collect();
    Card { terminals: 2, nonterminals, productions }
}

#[test]
fn long_ones_are_exact_as_far_as_they_go() {
    let lengths_of = |nonterminals, by| {
        let card = times(nonterminals, by);
        (lengths(&card), capped(&card, &lengths(&card)))
    };
    let (exact, numbers) = lengths_of(17, 2);
    assert_eq!(exact[2..5], [Some(65_536), Some(32_768), Some(16_384)]);
    assert_eq!(numbers[..3], [CAP, 32_768, 16_384]);
    assert_eq!(numbers[15..18], [2, 1, CAP]);
    let (exact, numbers) = lengths_of(60, 4);
    assert_eq!(exact[2], Some(1 << 118));
    assert_eq!(numbers[50..], [CAP, CAP, 16_384, 4_096, 1_024, 256, 64, 16, 4, 1]);
    // 8^59 is more than there is room for.
    let (exact, numbers) = lengths_of(60, 8);
    assert_eq!(exact[2..4], [Some(Length::MAX), Some(Length::MAX)]);
    assert_eq!(numbers[..2], [CAP, CAP]);
}

#[test]
fn the_cap_where_nothing_is_derived() {
    // A -> 1 | B, B -> B 1, and C without a production
    let productions = vec![(2, vec![1]), (2, vec![3]), (3, vec![3, 1])];
    let card = Card { terminals: 2, nonterminals: 3, productions };
    assert_eq!(lengths(&card), [Some(1), Some(1), Some(1), None, None]);
    assert_eq!(capped(&card, &lengths(&card))[..4], [1, CAP, CAP, CAP]);
}
