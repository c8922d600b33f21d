//! The merged card: examples written out, refusals in their order, and the sentences of
//! merged cards, which are those of either, by two membership tests that know nothing of LR.

use reference::answer::{grammar, reference, Answer};
use reference::card::{parse, Card};
use reference::derivation::{sentence, Shortest};
use reference::earley::recognise;
use reference::grammar::{useless, Grammar};
use reference::merge::{call, merge, out, Refusal, Which};
use reference::random::Random;
use reference::spans::Spans;

const A: [u16; 11] = [3, 1, 2, 3, 3, 3, 2, 1, 3, 1, 2];
/// S -> 1 B, B -> empty, B -> 2 B.
const B: [u16; 14] = [3, 2, 3, 4, 3, 4, 4, 2, 0, 2, 1, 4, 2, 4];
/// S -> empty, with no terminal but the end marker.
const EMPTY: [u16; 6] = [1, 1, 1, 0, 1, 0];

fn merged(first: &[u16], second: &[u16]) -> Vec<u16> {
    merge(first, second, 772).expect("a merged card")
}

#[test]
fn examples_written_out() {
    let twice = [3, 3, 6, 8, 3, 3, 4, 4, 5, 5, 1, 1, 2, 1, 2, 1, 4, 5, 4, 1, 2, 5, 1, 2];
    assert_eq!(merged(&A, &A), twice);
    let first_a = [3, 4, 7, 9, 3, 3, 4, 4, 5, 6, 6, 1, 1, 2, 1, 2, 0, 2];
    let symbols = [4, 5, 4, 1, 2, 1, 6, 2, 6];
    assert_eq!(merged(&A, &B), [&first_a[..], &symbols].concat());
    let first_b = [3, 4, 7, 9, 3, 3, 4, 5, 5, 6, 6, 1, 1, 2, 0, 2, 2, 1];
    let symbols = [4, 6, 1, 5, 2, 5, 6, 1, 2];
    assert_eq!(merged(&B, &A), [&first_b[..], &symbols].concat());
    assert_eq!(merged(&EMPTY, &EMPTY), [1, 3, 4, 2, 1, 1, 2, 3, 1, 1, 0, 0, 2, 3]);
}

#[test]
fn refusals_come_in_order() {
    let card = |which, number| Err(Refusal::Card(which, number, 0));
    // S -> 1 and B -> 1, which is not reached; S -> 1 with T 2; sixty nonterminals in a chain
    let useless = [3, 2, 2, 2, 3, 4, 1, 1, 1, 1];
    let other = [2, 1, 1, 1, 2, 1, 1];
    let chain = |terminals: usize| {
        let right = |j| vec![if j < 59 { terminals + j + 1 } else { 1 }];
        let productions = (0..60).map(|j| (terminals + j, right(j))).collect();
        Card { terminals, nonterminals: 60, productions }.numbers()
    };
    assert_eq!(merge(&[], &[], 0), card(Which::First, 4));
    assert_eq!(merge(&useless, &[], 0), Err(Refusal::Card(Which::First, 10, 4)));
    assert_eq!(merge(&A, &[], 0), card(Which::Second, 4));
    assert_eq!(merge(&other, &[3], 0), card(Which::Second, 4));
    assert_eq!(merge(&other, &useless, 0), Err(Refusal::Card(Which::Second, 10, 4)));
    assert_eq!(merge(&other, &A, 0), Err(Refusal::Terminals));
    assert_eq!(merge(&other, &chain(3), 0), Err(Refusal::Terminals));
    assert_eq!(merge(&A, &chain(3), 0), card(Which::Merged, 5));
    assert_eq!(merge(&chain(2), &other, 10_000), card(Which::Merged, 5));
    assert_eq!(merge(&A, &A, 23), Err(Refusal::Area));
    assert!(merge(&A, &A, 24).is_ok());
}

#[test]
fn answers_and_what_is_left() {
    let mut area = [7; 30];
    assert_eq!(call(&A, &A, &mut area), [0, 0, 24]);
    assert_eq!(area[..24], merged(&A, &A));
    assert_eq!(area[24..], [7; 6]);
    let mut area = [7; 23];
    assert_eq!(call(&A, &A, &mut area), [54, 0, 0]);
    assert_eq!(call(&A, &[2, 1, 1, 1, 2, 1, 1], &mut area), [53, 0, 0]);
    assert_eq!(call(&A, &[], &mut area), [4, 2, 0]);
    assert_eq!(call(&[3, 2, 2, 2, 3, 4, 1, 1, 1, 1], &A, &mut area), [10, 1, 4]);
    assert_eq!(area, [7; 23]);
    assert_eq!(out(&Err(Refusal::Card(Which::Merged, 5, 0))), [5, 3, 0]);
}

/// A random card with so many terminals and without useless nonterminals.
fn card(random: &mut Random, terminals: usize) -> Card {
    loop {
        let n = random.between(1, 4);
        let productions = (0..random.between(n, 8))
            .map(|p| {
                let left = terminals + if p < n { p } else { random.below(n) };
                let length = random.between(0, 3);
                (left, (0..length).map(|_| random.between(1, terminals + n - 1)).collect())
            })
            .collect();
        let card = Card { terminals, nonterminals: n, productions };
        if useless(&card).is_none() {
            return card;
        }
    }
}

/// By both membership tests.
fn member(grammar: &Grammar, line: &[u8]) -> bool {
    let found = recognise(grammar, line).sentence;
    assert_eq!(found, Spans::new(grammar, line).sentence(), "{:?} {line:?}", grammar.card);
    found
}

fn any_line(random: &mut Random, terminals: usize) -> Vec<u8> {
    (0..random.below(7)).map(|_| random.between(1, terminals - 1) as u8).collect()
}

/// Sentences of both cards, the same with a terminal changed, left out or added, and any
/// lines.
fn lines(random: &mut Random, cards: [&Grammar; 2]) -> Vec<Vec<u8>> {
    let terminals = cards[0].card.terminals;
    let mut lines: Vec<_> = (0..3).map(|_| any_line(random, terminals)).collect();
    for grammar in cards {
        let Some(line) = sentence(grammar, &Shortest::new(grammar), random, 12) else { continue };
        let mut damaged = line.clone();
        let at = random.below(line.len() + 1);
        match random.below(3) {
            0 if at < line.len() => drop(damaged.remove(at)),
            1 if at < line.len() => damaged[at] = random.between(1, terminals - 1) as u8,
            _ => damaged.insert(at, random.between(1, terminals - 1) as u8),
        }
        lines.extend([line, damaged]);
    }
    lines
}

/// So many pairs of cards with the same T, their grammars and the merged card's.
fn pairs(seed: u64, count: usize, mut look: impl FnMut(&mut Random, [&Grammar; 3])) {
    let mut random = Random::new(seed);
    for _ in 0..count {
        let terminals = random.between(2, 4);
        let [one, two] = [0, 1].map(|_| card(&mut random, terminals));
        let merged = merged(&one.numbers(), &two.numbers());
        // It passes 4 to 10.
        let merged = grammar(&merged).expect("a card without a fault");
        look(&mut random, [&Grammar::new(one), &Grammar::new(two), &merged]);
    }
}

#[test]
fn sentences_of_either_card() {
    let mut seen = [[0; 2]; 2];
    pairs(11, 4_000, |random, [one, two, merged]| {
        for line in lines(random, [one, two]) {
            let (first, second) = (member(one, &line), member(two, &line));
            let cards = (&one.card, &two.card);
            assert_eq!(member(merged, &line), first || second, "{cards:?} {line:?}");
            seen[usize::from(first)][usize::from(second)] += 1;
        }
    });
    // neither, the second only, the first only, both
    assert!(seen.iter().flatten().all(|&count| count > 2_000), "{seen:?}");
}

/// With both new productions to one of the starts, lines tell the card from the merged one.
#[test]
fn lines_tell_another_card() {
    let mut found = [0; 2];
    pairs(12, 200, |random, [one, two, merged]| {
        for (start, found) in found.iter_mut().enumerate() {
            let mut wrong = merged.card.clone();
            wrong.productions[1 - start].1 = wrong.productions[start].1.clone();
            // The other card's nonterminals are not reached; that changes no sentence.
            let wrong = Grammar::new(wrong);
            let lines = lines(random, [one, two]);
            *found += usize::from(lines.iter().any(|l| member(&wrong, l) != member(merged, l)));
        }
    });
    assert!(found.iter().all(|&count| count > 50), "{found:?}");
}

/// Every sentence has two derivations, so the maker finds a conflict, if it gets so far.
#[test]
fn a_card_with_itself_has_no_table() {
    let mut random = Random::new(13);
    let mut tables = 0;
    for _ in 0..2_000 {
        let terminals = random.between(2, 4);
        let numbers = card(&mut random, terminals).numbers();
        let answer = |numbers: &[u16]| reference(numbers, 2_000, false).answer;
        tables += usize::from(matches!(answer(&numbers), Answer::Table(_)));
        let answer = answer(&merged(&numbers, &numbers));
        assert!(matches!(answer, Answer::Refused(11..=13, _)), "{numbers:?}: {answer:?}");
    }
    assert!(tables > 200, "{tables}");
}

/// Two cards that begin with different terminals have a table together.
#[test]
fn other_cards_may_have_a_table() {
    let answer = reference(&merged(&A, &B), 2_000, true).answer;
    let Answer::Table(numbers) = answer else { panic!("{answer:?}") };
    assert_eq!(numbers[1..4], [3, 4, 7]);
}

#[test]
fn the_merged_card_has_the_sum_of_the_sizes() {
    pairs(14, 500, |_, [one, two, merged]| {
        let [one, two, merged] = [one, two, merged].map(|grammar| &grammar.card);
        assert_eq!(merged.terminals, one.terminals);
        assert_eq!(merged.nonterminals, 1 + one.nonterminals + two.nonterminals);
        assert_eq!(merged.productions.len(), 2 + one.productions.len() + two.productions.len());
        let numbers = merged.numbers();
        assert_eq!(numbers.len(), one.numbers().len() + two.numbers().len() + 2);
        assert_eq!(parse(&numbers).as_ref(), Ok(merged));
    });
}
