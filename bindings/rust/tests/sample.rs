//! The binding of the sample, and with it the way card, table, sample, parse.

use sidumza::generator::{self, table_of};
use sidumza::sample::{sample, sample_of, Refusal, SAMPLE};
use sidumza::{parse, Answer};

const CARD_A: &str = "3 1 2 3 3 3 2 1 3 1 2";

fn numbers(text: &str) -> Vec<u16> {
    text.split_whitespace().map(|word| word.parse().expect("a number")).collect()
}

/// A card with one production, of so many terminals 1.
fn ones(length: u16) -> Vec<u16> {
    [&[2, 1, 1, length, 2, length][..], &vec![1; length.into()]].concat()
}

/// The words of a refusal, whatever the area's length; nothing is written.
fn refused(card: &[u16], production: u64, lengths: &[usize]) -> String {
    let words: Vec<String> = lengths
        .iter()
        .map(|&length| {
            let mut area = vec![7; length];
            let refusal = sample(card, production, &mut area).expect_err("a refusal");
            assert!(area.iter().all(|&x| x == 7), "a refusal changes nothing");
            let _: &dyn std::error::Error = &refusal;
            assert!(refusal.to_string().starts_with(&format!("refused {}: ", refusal.number())));
            refusal.to_string()
        })
        .collect();
    assert!(words.iter().all(|each| *each == words[0]), "{words:?}");
    words[0].clone()
}

const SHORT: [usize; 3] = [0, 1, SAMPLE - 1];
const LONG: [usize; 3] = [SAMPLE, SAMPLE + 1, 1000];

/// Numbers of which no card has a production; the lower bits of most are those of one.
const NONE: [u64; 7] = [128, 256, 1 << 16, 1 << 32, (1 << 32) + 1, 1 << 63, u64::MAX];

/// Cards with a fault, and the words for it.
const FAULTS: [(&str, &str); 9] = [
    ("", "refused 4: card under 4 numbers"),
    ("3 1 2", "refused 4: card under 4 numbers"),
    ("65 1 1 1 65 1 64", "refused 5: a size outside its limits"),
    ("3 1 2 3 3 3 2 1 3 1 2 1", "refused 6: not 4 + 2P + L numbers"),
    ("3 1 2 3 3 2 2 1 3 1 2", "refused 7: a left side that is no nonterminal"),
    ("2 1 2 0 2 2 65535 1", "refused 8: lengths that do not add up to L"),
    ("3 1 2 3 3 3 2 1 0 1 2", "refused 9: a symbol that is 0 or at least T + N"),
    ("2 1 1 1 2 1 2", "refused 10: nonterminal 2 is not reached or derives no string of terminals"),
    ("3 2 2 1 3 4 1 0 1", "refused 10: nonterminal 4 is not reached or derives no string of terminals"),
];

#[test]
fn the_area_comes_before_the_card_and_the_card_before_the_production() {
    let short = "refused 47: area under 255 bytes";
    for (card, words) in FAULTS {
        for production in [0, 1].into_iter().chain(NONE) {
            assert_eq!(refused(&numbers(card), production, &SHORT), short);
            assert_eq!(refused(&numbers(card), production, &LONG), words);
        }
    }
    for card in [numbers(CARD_A), ones(256)] {
        for production in [2, 3, 65_535].into_iter().chain(NONE) {
            assert_eq!(refused(&card, production, &SHORT), short);
            assert_eq!(refused(&card, production, &LONG), "refused 48: no such production");
        }
        assert_eq!(refused(&card, 0, &SHORT), short);
    }
    let useless = generator::Refusal::Useless { nonterminal: 4 };
    assert_eq!(sample_of(&numbers("3 2 2 1 3 4 1 0 1"), 7), Err(Refusal::Card { refusal: useless }));
    assert_eq!(sample_of(&numbers(CARD_A), 2), Err(Refusal::NoProduction));
}

#[test]
fn samples_reach_255() {
    for length in [0, 1, 254, 255] {
        assert_eq!(sample_of(&ones(length), 0), Ok(vec![1; length.into()]));
    }
    for length in [256, 257, 511, 512] {
        assert_eq!(sample_of(&ones(length), 0), Err(Refusal::SampleLong));
        let words = "refused 49: no sentence of up to 255 terminals uses the production";
        assert_eq!(refused(&ones(length), 0, &LONG), words);
    }
}

#[test]
fn the_area_has_the_sample_and_zeros_up_to_255() {
    for (card, production, expected) in [
        (numbers(CARD_A), 0, vec![2, 1]),
        (numbers(CARD_A), 1, vec![2]),
        (numbers("1 1 1 0 1 0"), 0, vec![]),
        (numbers("64 1 1 1 64 1 63"), 0, vec![63]),
        (ones(255), 0, vec![1; 255]),
    ] {
        assert_eq!(sample_of(&card, production).as_ref(), Ok(&expected));
        for length in LONG {
            let mut area = vec![7; length];
            assert_eq!(sample(&card, production, &mut area), Ok(expected.len()));
            assert_eq!(area[..expected.len()], expected);
            assert!(area[expected.len()..SAMPLE].iter().all(|&x| x == 0), "zeros behind the sample");
            assert!(area[SAMPLE..].iter().all(|&x| x == 7), "bytes behind them");
        }
    }
}

#[test]
fn stored_examples_have_samples_of_these_lengths() {
    let folder = std::path::Path::new(env!("CARGO_MANIFEST_DIR")).join("../../examples");
    for (name, lengths) in [
        ("a.card", &[2, 1][..]),
        ("hymnal.card", &[2, 2, 3, 2, 2, 2, 4]),
        ("json.card", &[2, 2, 1, 1, 1, 1, 1, 2, 5, 5, 9, 5, 2, 3, 3, 5]),
        ("nested.card", &[3, 1]),
        ("pair.card", &[2, 2]),
    ] {
        let card = numbers(&std::fs::read_to_string(folder.join(name)).expect("a card"));
        let found: Vec<usize> =
            (0..lengths.len() as u64).map(|r| sample_of(&card, r).expect("a sample").len()).collect();
        assert_eq!(found, lengths, "{name}");
    }
}

#[test]
fn cards_without_a_table_have_samples() {
    // S -> S S | 1 and S -> S | 1
    for (card, lengths) in [("2 1 2 3 2 2 2 1 2 2 1", [2, 1]), ("2 1 2 2 2 2 1 1 2 1", [1, 1])] {
        let card = numbers(card);
        assert_eq!(table_of(&card).expect_err("a conflict").number(), 13);
        for (production, length) in lengths.into_iter().enumerate() {
            assert_eq!(sample_of(&card, production as u64), Ok(vec![1; length]));
        }
    }
}

/// Whether the reader accepts the sample within the list; then that has the production.
fn listed(table: &[u16], input: &[u8], production: u64) -> bool {
    let mut list = [0; 4096];
    match parse(table, input, &mut [0; 4096], &mut list, &mut [0; 4096], 5000) {
        Answer::Accepted { counts } => {
            assert!(list[..counts.listed].iter().any(|&r| u64::from(r) == production), "{production} of {input:?}");
            true
        }
        Answer::ListFull { .. } => false,
        other => panic!("{input:?}: {other}"),
    }
}

#[test]
fn samples_of_stored_cards_are_accepted_and_use_their_productions() {
    let folder = std::path::Path::new(env!("CARGO_MANIFEST_DIR")).join("../../tests/bison/data");
    // accepted; of cards without a table, or too long; where empty productions double, so that the list is full
    let [mut accepted, mut others, mut full] = [0; 3];
    for file in std::fs::read_dir(folder).expect("the stored cards") {
        let text = std::fs::read_to_string(file.expect("a file").path()).expect("a text");
        for card in text.lines().filter_map(|line| line.strip_prefix("card ")).map(numbers) {
            let table = table_of(&card);
            for production in 0..card[2].into() {
                match (sample_of(&card, production), &table) {
                    (Ok(input), Ok(table)) if listed(table, &input, production) => accepted += 1,
                    (Ok(_), Ok(_)) => full += 1,
                    (Ok(_) | Err(Refusal::SampleLong), _) => others += 1,
                    (Err(Refusal::Card { refusal }), table) => assert_eq!(table.as_ref(), Err(&refusal)),
                    (Err(refusal), _) => panic!("{refusal}"),
                }
            }
        }
    }
    assert!(accepted > 9000 && others > 7000, "{accepted} accepted, {others} others, {full} with a full list");
}
