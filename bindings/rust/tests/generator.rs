//! The binding of the generator, and with it the way card, table, text, table, parse.

use sidumza::generator::{generate, table_of, Refusal, HALVES, TABLE, WORDS};
use sidumza::{entered, parse, parse_restricted, read_table, Answer};
use std::collections::BTreeSet;

const CARD_A: &str = "3 1 2 3 3 3 2 1 3 1 2";

fn numbers(text: &str) -> Vec<u16> {
    text.split_whitespace().map(|word| word.parse().expect("a number")).collect()
}

fn line<T: ToString>(numbers: &[T]) -> String {
    numbers.iter().map(|n| format!(" {}", n.to_string())).collect()
}

fn printed(table: &[u16]) -> String {
    let (q, p, width) = (table[0] as usize, table[3] as usize, (table[1] + table[2]) as usize);
    let (left, rest) = table[4..].split_at(p);
    let (length, rest) = rest.split_at(p);
    let (entered, cells) = rest.split_at(q);
    let mut text = format!("table{}\nleft{}\nlength{}\n", line(&table[..4]), line(left), line(length));
    text += &format!("entered{}\n", line(entered));
    for (state, row) in cells.chunks(width).enumerate() {
        text += &format!("row {state} :{}\n", line(row));
    }
    text
}

/// As maketable prints a refusal.
fn refused(refusal: Refusal) -> String {
    let values = match refusal {
        Refusal::Useless { nonterminal } => vec![nonterminal],
        Refusal::Conflict { state, terminal, lower, higher } => vec![state, terminal, lower, higher],
        _ => vec![],
    };
    format!("refused {}{}", refusal.number(), line(&values))
}

#[test]
fn every_refusal_has_its_number_and_words() {
    let long = format!("2 1 1 255 2 255 {}", "1 ".repeat(255));
    // a chain of 60 nonterminals entered from 36 contexts
    let chain: Vec<usize> = (38..97).collect();
    let (t, n, contexts) = (38, 60, 36);
    let crowded = format!(
        "{t} {n} {} {} {} {} {} {} {} {}",
        chain.len() + contexts + 1,
        chain.len() + 2 * contexts + 1,
        line(&chain),
        line(&vec![t + n - 1; contexts + 1]),
        line(&vec![1; chain.len()]),
        line(&[vec![2; contexts], vec![1]].concat()),
        line(&chain.iter().map(|x| x + 1).collect::<Vec<_>>()),
        line(&[(1..=contexts).flat_map(|c| [c, t]).collect(), vec![t - 1]].concat()),
    );
    for (card, words) in [
        ("3 1 2", "refused 4: card under 4 numbers"),
        ("65 1 1 1 65 1 64", "refused 5: a size outside its limits"),
        ("3 1 2 3 3 3 2 1 3 1 2 1", "refused 6: not 4 + 2P + L numbers"),
        ("3 1 2 3 3 2 2 1 3 1 2", "refused 7: a left side that is no nonterminal"),
        ("2 1 2 0 2 2 65535 1", "refused 8: lengths that do not add up to L"),
        ("3 1 2 3 3 3 2 1 0 1 2", "refused 9: a symbol that is 0 or at least T + N"),
        ("2 1 1 1 2 1 2", "refused 10: nonterminal 2 is not reached or derives no string of terminals"),
        (&long, "refused 11: more than 256 states"),
        (&crowded, "refused 12: more than 2048 transitions on nonterminals"),
        ("2 1 2 3 2 2 2 1 2 2 1", "refused 13: in state 3, terminal 1, 1 and 1024 meet"),
    ] {
        let refusal = table_of(&numbers(card)).expect_err(words);
        assert_eq!(refusal.to_string(), words);
        assert!(words.starts_with(&format!("refused {}:", refusal.number())));
        let _: &dyn std::error::Error = &refusal;
    }
    let card = numbers(CARD_A);
    for (lengths, words) in [
        ([TABLE - 1, WORDS, HALVES], "refused 1: table area under 32260 numbers"),
        ([TABLE, WORDS - 1, HALVES], "refused 2: first work area under 8192 numbers"),
        ([TABLE, WORDS, HALVES - 1], "refused 3: second work area under 16384 numbers"),
    ] {
        let (mut table, mut area, mut halves) = (vec![7; lengths[0]], vec![7; lengths[1]], vec![7; lengths[2]]);
        let refusal = generate(&card, &mut table, &mut area, &mut halves).expect_err(words);
        assert_eq!(refusal.to_string(), words);
        let kept = table.iter().all(|&x| x == 7) && area.iter().all(|&x| x == 7) && halves.iter().all(|&x| x == 7);
        assert!(kept, "a refusal changes nothing");
    }
}

#[test]
fn areas_are_left_as_the_header_says() {
    let (mut table, mut words, mut halves) = (vec![7; TABLE + 1], vec![7; WORDS + 1], vec![7; HALVES + 1]);
    let length = generate(&numbers(CARD_A), &mut table, &mut words, &mut halves).expect("a table");
    assert_eq!(table[..length], table_of(&numbers(CARD_A)).expect("a table"));
    assert_eq!(length, 28);
    assert!(table[length..TABLE].iter().all(|&x| x == 0) && table[TABLE] == 7);
    assert!(words[..WORDS].iter().all(|&x| x == 0) && words[WORDS] == 7);
    assert!(halves[..HALVES].iter().all(|&x| x == 0) && halves[HALVES] == 7);
}

#[test]
fn states_have_their_entering_symbols() {
    let table = table_of(&numbers(CARD_A)).expect("a table");
    assert_eq!(entered(&table), [0, 2, 3, 1]);
    assert_eq!(entered(&table[..12]), [0, 2, 3, 1]);
    for short in 0..12 {
        assert!(entered(&table[..short]).is_empty(), "{short} numbers");
    }
    let mut stack = [0; 9];
    let answer = parse(&table, &[2, 1, 2], &mut stack, &mut [0; 9], &mut [0; 9], 9);
    let Answer::NoAction { counts, .. } = answer else { panic!("{answer}") };
    let read: Vec<u16> = stack[1..counts.depth].iter().map(|&q| entered(&table)[q as usize]).collect();
    assert_eq!(read, [3, 1]);
}

#[test]
fn stored_cards_give_their_answers_and_tables_are_read_back() {
    let folder = std::path::Path::new(env!("CARGO_MANIFEST_DIR")).join("../../tests/bison/data");
    let (mut tables, mut seen) = (0, BTreeSet::new());
    for file in std::fs::read_dir(folder).expect("the stored cards") {
        let text = std::fs::read_to_string(file.expect("a file").path()).expect("a text");
        let lines: Vec<&str> = text.lines().collect();
        for pair in lines.windows(2) {
            let Some(card) = pair[0].strip_prefix("card ") else { continue };
            match table_of(&numbers(card)) {
                Ok(table) => {
                    assert_eq!(pair[1], format!("table {}", table[0]), "card {card}");
                    assert_eq!(read_table(printed(&table).as_bytes()).as_ref(), Ok(&table), "card {card}");
                    tables += 1;
                }
                Err(refusal) => {
                    assert_eq!(pair[1], refused(refusal), "card {card}");
                    seen.insert(refusal.number());
                }
            }
        }
    }
    assert!(tables > 300, "{tables} tables");
    assert!(seen.contains(&11) && seen.contains(&12) && seen.contains(&13), "refusals {seen:?}");
}

#[test]
fn answers_have_words() {
    let table = table_of(&numbers(CARD_A)).expect("a table");
    let said = |input: &[u8], stack: usize, list: usize, limit: u64| {
        let answer = parse(&table, input, &mut vec![0; stack], &mut vec![0; list], &mut vec![7; stack], limit);
        let _: &dyn std::error::Error = &answer;
        (answer.number(), answer.to_string())
    };
    let all = [
        (said(&[2, 1], 9, 9, 9), 0, "accepted: steps 5, listed 2"),
        (said(&[2, 2], 9, 9, 9), 31, "wrong at 1: steps 1, expected 0 1"),
        (said(&[2, 1], 9, 9, 4), 32, "stopped 32: steps 4, stack 2, listed 2"),
        (said(&[2, 1], 9, 9, (1 << 32) + 4), 0, "accepted: steps 5, listed 2"),
        (said(&[2, 1], 9, 9, u64::MAX), 0, "accepted: steps 5, listed 2"),
        (said(&[2, 1], 2, 9, 9), 33, "stopped 33: steps 2, stack 2, listed 1"),
        (said(&[2, 1], 9, 1, 9), 34, "stopped 34: steps 3, stack 3, listed 1"),
        (said(&[2, 2], 9, 9, 2), 46, "wrong at 1: steps 1, expected unknown (46)"),
        (said(&[2, 2], 2, 9, 9), 46, "wrong at 1: steps 1, expected unknown (46)"),
        (said(&[], 9, 9, 0), 46, "wrong at 0: steps 0, expected unknown (46)"),
        (said(&[9], 9, 9, 9), 26, "refused 26: no such terminal"),
        (said(&[2], 0, 9, 9), 27, "refused 27: no stack area"),
        (said(&[1; 65_536], 9, 9, 9), 25, "refused 25: input too long"),
    ];
    for ((number, words), wanted, text) in all {
        assert_eq!((number, words.as_str()), (wanted, text));
    }
}

#[test]
fn foreign_tables_have_words() {
    let foreign = |table: &[u16]| parse(table, &[], &mut [0; 9], &mut [0; 9], &mut [0; 9], 9);
    for (table, number, words) in [
        (&[][..], 21, "refused 21: table too short"),
        (&[0, 1, 1, 1], 22, "refused 22: bad sizes in the table"),
        (&[1, 1, 1, 1, 0, 1, 0, 1024, 0], 23, "refused 23: bad production in the table"),
        (&[1, 1, 1, 1, 1, 1, 0, 1, 0], 24, "refused 24: bad cell in the table"),
        (&[1, 1, 1, 1, 1, 1, 1, 1024, 0], 44, "refused 44: bad entering symbol in the table"),
        (&[1, 1, 1, 1, 1, 1, 0, 1024, 0], 35, "stopped 35: steps 0, stack 1, listed 0"),
        (&[1, 2, 1, 1, 2, 1, 0, 0, 1024, 0], 46, "wrong at 0: steps 0, expected unknown (46)"),
    ] {
        let answer = foreign(table);
        assert_eq!((answer.number(), answer.to_string().as_str()), (number, words));
        if let Answer::Refused { refusal } = answer {
            assert_eq!((refusal.number(), refusal.to_string().as_str()), (number, words));
            let _: &dyn std::error::Error = &refusal;
        }
    }
}

#[test]
fn what_can_follow_is_found_in_the_second_area() {
    let table = table_of(&numbers(CARD_A)).expect("a table");
    let read = |second: usize| {
        let mut area = vec![7; second];
        let answer = parse(&table, &[2, 2], &mut [7; 2], &mut [7; 9], &mut area, 9);
        (answer.number(), area)
    };
    assert_eq!(read(1), (45, vec![7]));
    assert_eq!(read(2), (46, vec![0; 2]));
    assert_eq!(read(3), (31, vec![0; 3]));
    assert_eq!(read(9), (31, vec![0; 9]));
    let answer = parse(&table, &[2], &mut [7; 3], &mut [7; 9], &mut [7; 2], 9);
    assert_eq!(answer.to_string(), "refused 45: second stack area too short");
    // S -> 1 S 2 | 1: after 1 1 the row has 2 alone, and 1 can follow, too.
    let nested = table_of(&numbers("3 1 2 4 3 3 3 1 1 3 2 1")).expect("a table");
    let answer = parse(&nested, &[1, 1], &mut [7; 9], &mut [7; 9], &mut [7; 9], 99);
    assert_eq!(answer.to_string(), "wrong at 2: steps 3, expected 1 2");
    // S -> A A, A -> 1: behind 1 the row has a reduction for 0, but 1 is no sentence.
    let pair = table_of(&numbers("3 2 2 3 4 3 1 2 1 4 4")).expect("a table");
    let answer = parse(&pair, &[1, 2], &mut [7; 9], &mut [7; 9], &mut [7; 9], 99);
    assert_eq!(answer.to_string(), "wrong at 1: steps 1, expected 1");
}

#[test]
fn closed_terminals_are_wrong_where_they_stand() {
    let table = table_of(&numbers(CARD_A)).expect("a table");
    let said = |input: &[u8], closed: u64, stack: usize, limit: u64| {
        let (mut states, mut list, mut second) = (vec![7; stack], vec![7; 9], vec![7; stack]);
        let answer = parse_restricted(&table, input, closed, &mut states, &mut list, &mut second, limit);
        let left = if let Answer::Refused { .. } = answer { 7 } else { 0 };
        assert!(second.iter().all(|&place| place == left), "{answer}");
        (answer.number(), answer.to_string())
    };
    let refused = "refused 50: bad word of closed terminals";
    let all = [
        (said(&[2, 1], 2, 9, 9), 31, "wrong at 1: steps 1, expected 0"),
        (said(&[2, 1], 4, 9, 9), 31, "wrong at 0: steps 0, expected nothing"),
        (said(&[2], 2, 9, 9), 0, "accepted: steps 3, listed 1"),
        (said(&[2, 2], 2, 9, 9), 31, "wrong at 1: steps 1, expected 0"),
        (said(&[2, 1], 2, 9, 1), 46, "wrong at 1: steps 1, expected unknown (46)"),
        (said(&[2], 4, 1, 0), 31, "wrong at 0: steps 0, expected nothing"),
        (said(&[2], 2, 1, 9), 33, "stopped 33: steps 0, stack 1, listed 0"),
        (said(&[2, 1], 1, 9, 9), 50, refused),
        (said(&[2, 1], 8, 9, 9), 50, refused),
        (said(&[2, 1], 1 << 63, 9, 9), 50, refused),
        (said(&[2, 1], 1, 0, 9), 27, "refused 27: no stack area"),
        (said(&[2, 3], 8, 9, 9), 26, "refused 26: no such terminal"),
    ];
    for ((number, words), wanted, text) in all {
        assert_eq!((number, words.as_str()), (wanted, text));
    }
    let answer = parse_restricted(&table, &[2], 1, &mut [7; 3], &mut [7; 9], &mut [7; 2], 9);
    assert_eq!(answer.to_string(), "refused 45: second stack area too short");
}

#[test]
fn word_0_is_the_publishers() {
    // S -> 1 S 2 | 1
    let nested = table_of(&numbers("3 1 2 4 3 3 3 1 1 3 2 1")).expect("a table");
    for input in [&[][..], &[1], &[1, 1], &[1, 1, 2], &[1, 1, 1, 2], &[2], &[1, 1, 2, 1], &[3]] {
        for limit in 0..12 {
            let mut areas = [[7; 9], [7; 9], [7; 9]];
            let mut others = areas;
            let [stack, list, second] = &mut areas;
            let publisher = parse(&nested, input, stack, list, second, limit);
            let [stack, list, second] = &mut others;
            let choir = parse_restricted(&nested, input, 0, stack, list, second, limit);
            assert_eq!((choir, others), (publisher, areas), "{input:?}, limit {limit}");
        }
    }
    // Terminal 2 closed: no reduction under it, and it is not expected.
    let (mut stack, mut list) = ([7; 9], [7; 9]);
    let answer = parse_restricted(&nested, &[1, 1, 2], 4, &mut stack, &mut list, &mut [7; 9], 99);
    assert_eq!(answer.to_string(), "wrong at 2: steps 2, expected 1");
    assert_eq!((stack[..4].to_vec(), list), (vec![0, 1, 1, 7], [7; 9]));
}
