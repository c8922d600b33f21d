//! The cards and inputs that the paper prints.

use reference::answer::{reference, Answer};
use reference::card::parse as card_of;
use reference::earley::recognise;
use reference::grammar::Grammar;
use reference::parser::parse;
use reference::spans::follow;

fn answer(card: &[u16]) -> Answer {
    reference(card, 10_000, true).answer
}

fn rows(card: &[u16]) -> Vec<Vec<u16>> {
    match answer(card) {
        Answer::Table(numbers) => {
            let sizes: Vec<usize> = numbers[..4].iter().map(|&n| n as usize).collect();
            numbers[4 + 2 * sizes[3] + sizes[0]..]
                .chunks(sizes[1] + sizes[2])
                .map(|row| row.to_vec())
                .collect()
        }
        other => panic!("{other:?}"),
    }
}

/// The entering symbols of a card's states.
fn entered(card: &[u16]) -> Vec<u16> {
    match answer(card) {
        Answer::Table(numbers) => {
            numbers[4 + 2 * numbers[3] as usize..][..numbers[0] as usize].to_vec()
        }
        other => panic!("{other:?}"),
    }
}

fn refused(card: &[u16]) -> [u64; 5] {
    let answer = answer(card);
    assert!(matches!(answer, Answer::Refused(..)), "{card:?}");
    answer.out()
}

#[test]
fn card_a() {
    let table = [
        4, 3, 1, 2, 3, 3, 2, 1, 0, 2, 3, 1, 0, 0, 1, 2, 1025, 1025, 0, 0, 4096, 3, 0, 0, 1024,
        1024, 0, 0,
    ];
    assert_eq!(answer(&[3, 1, 2, 3, 3, 3, 2, 1, 3, 1, 2]), Answer::Table(table.to_vec()));
}

#[test]
fn entering_symbols() {
    assert_eq!(entered(&[3, 1, 2, 3, 3, 3, 2, 1, 3, 1, 2]), [0, 2, 3, 1]);
    assert_eq!(entered(&[1, 1, 1, 0, 1, 0]), [0, 1]);
    // S -> 1 S 2 | empty: state 1 is entered from states 0 and 1 by 1
    assert_eq!(entered(&[3, 1, 2, 3, 3, 3, 3, 0, 1, 3, 2]), [0, 1, 3, 3, 2]);
}

#[test]
fn small_cards() {
    assert_eq!(rows(&[1, 1, 1, 0, 1, 0]), [[1024, 1], [4096, 0]]);
    assert_eq!(refused(&[2, 1, 2, 3, 2, 2, 2, 1, 2, 2, 1]), [13, 3, 1, 1, 1024]);
    assert_eq!(refused(&[2, 1, 2, 2, 2, 2, 1, 1, 2, 1]), [13, 2, 0, 1024, 4096]);
    assert_eq!(refused(&[2, 1, 1, 1, 2, 1, 2]), [10, 2, 0, 0, 0]);
    assert_eq!(refused(&[2, 1, 3, 3, 2, 2, 2, 0, 2, 1, 2, 2, 1]), [13, 0, 1, 1, 1024]);
    assert_eq!(refused(&[1, 1, 2, 0, 1, 1, 0, 0]), [13, 0, 0, 1024, 1025]);
}

#[test]
fn number_of_states() {
    let one = |length: usize| {
        let mut card = vec![2, 1, 1, length as u16, 2, length as u16];
        card.extend(vec![1; length]);
        card
    };
    assert_eq!(rows(&one(254)).len(), 256);
    assert_eq!(refused(&one(255))[0], 11);
    assert_eq!(refused(&one(512))[0], 11);
}

#[test]
fn misreadings() {
    let follow_per_nonterminal = [4, 3, 5, 8, 4, 4, 5, 5, 6, 3, 1, 2, 1, 1, 5, 1, 6, 6, 2, 6, 3, 5];
    let table = rows(&follow_per_nonterminal);
    assert_eq!((table.len(), table[4][0], table[4][1]), (10, 1028, 8));

    let follow_per_state =
        [6, 3, 6, 14, 6, 6, 6, 6, 7, 8, 3, 3, 3, 3, 1, 1, 1, 5, 4, 1, 7, 3, 2, 7, 4, 2, 5, 3, 8, 5];
    let table = rows(&follow_per_state);
    assert_eq!((table.len(), table[4][3], table[4][4]), (13, 1029, 9));

    let unmerged =
        [6, 3, 6, 14, 6, 6, 6, 6, 7, 8, 3, 3, 3, 3, 1, 1, 1, 7, 4, 2, 8, 4, 1, 8, 5, 2, 7, 5, 3, 3];
    assert_eq!(refused(&unmerged), [13, 4, 4, 1028, 1029]);
}

/// Number, steps, position and expected set with the table of a card; the set is looked
/// at without LR, too.
fn offer(card: &[u16], input: &[u8]) -> [u64; 4] {
    let Answer::Table(table) = answer(card) else { panic!("{card:?}") };
    let (mut stack, mut list, mut second) = ([7; 9], [7; 9], [7; 9]);
    let end = parse(&table, input, &mut stack, &mut list, &mut second, 99);
    let grammar = Grammar::new(card_of(card).expect("a card"));
    assert_eq!(end.expected, recognise(&grammar, input).follow);
    assert_eq!(end.expected, follow(&grammar, &input[..end.position as usize]));
    assert_eq!(end.expected_count, u64::from(end.expected.count_ones()));
    [end.number, end.steps, end.position, end.expected]
}

#[test]
fn terminals_that_can_follow() {
    // S -> 1 S 2 | 1: 1 1 is reduced at the end; the row then has 2 alone.
    assert_eq!(offer(&[3, 1, 2, 4, 3, 3, 3, 1, 1, 3, 2, 1], &[1, 1]), [31, 3, 2, 6]);
    // S -> A A, A -> 1: the row before 2 has a reduction for 0, too.
    assert_eq!(offer(&[3, 2, 2, 3, 4, 3, 1, 2, 1, 4, 4], &[1, 2]), [31, 1, 1, 2]);
    // A: the empty input, and 2 2
    assert_eq!(offer(&[3, 1, 2, 3, 3, 3, 2, 1, 3, 1, 2], &[]), [31, 0, 0, 4]);
    assert_eq!(offer(&[3, 1, 2, 3, 3, 3, 2, 1, 3, 1, 2], &[2, 2]), [31, 1, 1, 3]);
}
