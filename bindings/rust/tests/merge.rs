//! The binding of the merge, and with it the way cards, merged card, table, parse.

use sidumza::generator::{self, table_of};
use sidumza::merge::{merge, merged_of, Refusal, Which, CARD};
use sidumza::{parse, Answer};

const CARD_A: &str = "3 1 2 3 3 3 2 1 3 1 2";

fn numbers(text: &str) -> Vec<u16> {
    text.split_whitespace().map(|word| word.parse().expect("a number")).collect()
}

/// A card of these sizes without a fault: a chain of the nonterminals, the last of which has all other productions; the
/// first of these has all other symbols. P must be N or more, L at least N - 1.
fn sized(t: u16, n: u16, p: u16, l: u16) -> Vec<u16> {
    let (chain, more) = (usize::from(n - 1), usize::from(p - n));
    let rest = l - (n - 1);
    let mut card = vec![t, n, p, l];
    card.extend(t..t + n - 1);
    card.extend(vec![t + n - 1; more + 1]);
    card.extend(vec![1; chain]);
    card.push(rest);
    card.extend(vec![0; more]);
    card.extend(t + 1..t + n);
    card.extend(vec![1; rest.into()]);
    card
}

/// The productions of a card, with its nonterminals moved on.
fn productions(card: &[u16], by: u16) -> Vec<(u16, Vec<u16>)> {
    let moved = |&x: &u16| if x < card[0] { x } else { x + by };
    let (left, rest) = card[4..].split_at(card[2].into());
    let (lengths, mut symbols) = rest.split_at(card[2].into());
    let mut right = |length: u16| {
        let (these, others) = symbols.split_at(length.into());
        symbols = others;
        these.iter().map(moved).collect()
    };
    left.iter().zip(lengths).map(|(x, &length)| (moved(x), right(length))).collect()
}

/// The merged card, production by production.
fn expected(first: &[u16], second: &[u16]) -> Vec<u16> {
    let (t, n) = (first[0], first[1]);
    let mut all = vec![(t, vec![t + 1]), (t, vec![t + 1 + n])];
    all.extend(productions(first, 1));
    all.extend(productions(second, 1 + n));
    let symbols: Vec<u16> = all.iter().flat_map(|(_, right)| right.clone()).collect();
    let mut card = vec![t, 1 + n + second[1], all.len() as u16, symbols.len() as u16];
    card.extend(all.iter().map(|(left, _)| left));
    card.extend(all.iter().map(|(_, right)| right.len() as u16));
    card.extend(symbols);
    card
}

/// The words of a refusal, whatever the area's length; nothing is written.
fn refused(first: &[u16], second: &[u16], lengths: &[usize]) -> String {
    let words: Vec<String> = lengths
        .iter()
        .map(|&length| {
            let mut area = vec![7; length];
            let refusal = merge(first, second, &mut area).expect_err("a refusal");
            assert!(area.iter().all(|&x| x == 7), "a refusal changes nothing");
            let _: &dyn std::error::Error = &refusal;
            assert!(refusal.to_string().contains(&format!("refused {}: ", refusal.number())));
            refusal.to_string()
        })
        .collect();
    assert!(words.iter().all(|each| *each == words[0]), "{words:?}");
    words[0].clone()
}

const AREAS: [usize; 4] = [0, 1, CARD, CARD + 9];

/// Cards with a fault, and the words for it.
const FAULTS: [(&str, &str); 10] = [
    ("", "refused 4: card under 4 numbers"),
    ("3 1 2", "refused 4: card under 4 numbers"),
    ("65 1 1 1 65 1 64", "refused 5: a size outside its limits"),
    ("3 1 2 3 3 3 2 1 3 1 2 1", "refused 6: not 4 + 2P + L numbers"),
    ("3 1 2 3 3 2 2 1 3 1 2", "refused 7: a left side that is no nonterminal"),
    ("2 1 2 0 2 2 65535 1", "refused 8: lengths that do not add up to L"),
    ("3 1 2 3 3 3 2 1 0 1 2", "refused 9: a symbol that is 0 or at least T + N"),
    ("2 1 1 1 2 1 2", "refused 10: nonterminal 2 is not reached or derives no string of terminals"),
    ("3 2 2 1 3 4 1 0 1", "refused 10: nonterminal 4 is not reached or derives no string of terminals"),
    ("64 60 60 60 64 65", "refused 6: not 4 + 2P + L numbers"),
];

#[test]
fn cards_are_checked_the_first_card_first() {
    let good = numbers(CARD_A);
    for (card, words) in FAULTS {
        let card = numbers(card);
        assert_eq!(refused(&card, &good, &AREAS), format!("first card: {words}"));
        assert_eq!(refused(&good, &card, &AREAS), format!("second card: {words}"));
        assert_eq!(refused(&card, &card, &AREAS), format!("first card: {words}"));
        for (other, _) in FAULTS {
            assert_eq!(refused(&card, &numbers(other), &AREAS), format!("first card: {words}"));
        }
    }
    let useless = generator::Refusal::Useless { nonterminal: 4 };
    assert_eq!(
        merged_of(&good, &numbers("3 2 2 1 3 4 1 0 1")),
        Err(Refusal::Card { which: Which::Second, refusal: useless })
    );
}

#[test]
fn cards_that_differ_in_t_come_after_both_checks_and_before_the_sizes() {
    let words = "refused 53: the cards differ in T";
    let (good, wide) = (numbers(CARD_A), sized(64, 60, 128, 512));
    assert_eq!(refused(&good, &sized(4, 1, 1, 1), &AREAS), words);
    assert_eq!(refused(&sized(4, 1, 1, 1), &good, &AREAS), words);
    assert_eq!(refused(&good, &sized(2, 1, 1, 1), &AREAS), words);
    assert_eq!(refused(&sized(63, 60, 128, 512), &wide, &AREAS), words);
    for (card, fault) in FAULTS {
        assert_eq!(refused(&wide, &numbers(card), &AREAS), format!("second card: {fault}"));
        assert_eq!(refused(&numbers(card), &wide, &AREAS), format!("first card: {fault}"));
    }
}

#[test]
fn sizes_are_taken_up_to_their_limits() {
    let words = "merged card: refused 5: a size outside its limits";
    // a card, one with which the merged card is as large as can be, and one that is too large by one
    for (card, second, over) in [
        (sized(3, 30, 30, 29), sized(3, 29, 29, 28), sized(3, 30, 30, 29)),
        (sized(3, 1, 63, 3), sized(3, 2, 63, 4), sized(3, 2, 64, 4)),
        (sized(3, 1, 1, 255), sized(3, 2, 2, 255), sized(3, 2, 2, 256)),
        (sized(64, 58, 100, 500), sized(64, 1, 26, 10), sized(64, 1, 26, 11)),
        (sized(1, 58, 58, 57), sized(1, 1, 1, 0), sized(1, 2, 2, 1)),
    ] {
        assert_eq!(merged_of(&card, &second), Ok(expected(&card, &second)));
        assert_eq!(merged_of(&second, &card), Ok(expected(&second, &card)));
        assert_eq!(refused(&card, &over, &AREAS), words);
        assert_eq!(refused(&over, &card, &AREAS), words);
    }
    let largest = merged_of(&sized(64, 58, 100, 500), &sized(64, 1, 26, 10)).expect("a merged card");
    assert_eq!((largest.len(), &largest[..4]), (CARD, &[64, 60, 128, 512][..]));
    assert_eq!(refused(&sized(64, 60, 128, 512), &sized(64, 60, 128, 512), &AREAS), words);
    let refusal = Refusal::Card { which: Which::Merged, refusal: generator::Refusal::CardSizes };
    assert_eq!(merged_of(&largest, &sized(64, 1, 1, 1)), Err(refusal));
}

#[test]
fn areas_are_exact_longer_or_too_short() {
    for (first, second) in [
        (numbers(CARD_A), numbers(CARD_A)),
        (sized(3, 2, 5, 9), numbers(CARD_A)),
        (sized(1, 1, 1, 0), sized(1, 1, 1, 0)),
        (sized(64, 58, 100, 500), sized(64, 1, 26, 10)),
    ] {
        let length = first.len() + second.len() + 2;
        let words = "refused 54: area shorter than the merged card";
        assert_eq!(refused(&first, &second, &[0, 1, 4, length - 1]), words);
        for more in [0, 1, 1000] {
            let mut area = vec![7; length + more];
            assert_eq!(merge(&first, &second, &mut area), Ok(length));
            assert_eq!(area[..length], expected(&first, &second));
            assert!(area[length..].iter().all(|&x| x == 7), "places behind the card");
        }
    }
}

#[test]
fn stored_cards_give_the_stored_merged_card() {
    let folder = std::path::Path::new(env!("CARGO_MANIFEST_DIR")).join("../../examples");
    let card = |name| numbers(&std::fs::read_to_string(folder.join(name)).expect("a card"));
    let merged = merged_of(&card("hymnal-first.card"), &card("hymnal-second.card"));
    assert_eq!(merged, Ok(card("hymnal.card")));
}

/// The productions listed of an accepted input; none of one that is wrong.
fn listed(table: &[u16], input: &[u8]) -> Option<Vec<u16>> {
    let mut list = [0; 9];
    match parse(table, input, &mut [0; 9], &mut list, &mut [0; 9], 99) {
        Answer::Accepted { counts } => Some(list[..counts.listed].to_vec()),
        Answer::NoAction { .. } => None,
        other => panic!("{other}"),
    }
}

#[test]
fn sentences_are_those_of_either_card() {
    // the first: 2, then any number of 1; the second: 1 S 2 or 1; the third: nothing
    let [first, second] = [CARD_A, "3 1 2 4 3 3 3 1 1 3 2 1"].map(numbers);
    let third = numbers("3 1 1 0 3 0");
    let two = merged_of(&first, &second).expect("a merged card");
    let three = merged_of(&two, &third).expect("a merged card");
    assert_eq!(three, expected(&expected(&first, &second), &third));
    let [two, three] = [two, three].map(|card| table_of(&card).expect("a table"));
    for (input, in_two, in_three) in [
        (&[2, 1][..], Some(vec![3, 2, 0]), Some(vec![5, 4, 2, 0])),
        (&[1, 1, 2], Some(vec![5, 4, 1]), Some(vec![7, 6, 3, 0])),
        (&[], None, Some(vec![8, 1])),
        (&[1, 1], None, None),
    ] {
        assert_eq!((listed(&two, input), listed(&three, input)), (in_two, in_three), "{input:?}");
    }
}

#[test]
fn the_maker_may_find_a_conflict() {
    // each card with itself, and title verse.. with title verse.. refrain, which have no sentence in common
    let card = numbers(CARD_A);
    let verses = numbers("4 1 2 3 4 4 2 1 4 1 2");
    let refrain = numbers("4 2 3 6 4 5 5 3 1 2 2 5 3 1 5 1");
    for (first, second) in [(&card, &card), (&verses, &refrain), (&refrain, &verses), (&refrain, &refrain)] {
        table_of(first).expect("a table");
        let merged = merged_of(first, second).expect("a merged card");
        assert_eq!(table_of(&merged).expect_err("a conflict").number(), 13);
    }
}
