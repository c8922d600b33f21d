//! Samples of productions: examples written out, refusals in their order, least lengths and
//! samples against all short sentences of small cards, and the membership tests against
//! each other and against derivations drawn at random.

use reference::answer::{reference, Answer};
use reference::card::Card;
use reference::grammar::{useless, Grammar};
use reference::listing::Listing;
use reference::random::Random;
use reference::sample::{call, checked, out, sample, Refusal, Samples, MOST};
use reference::uses::{doubled, uses, uses_by_twins};

/// S -> S 1, S -> 2.
const A: [u16; 11] = [3, 1, 2, 3, 3, 3, 2, 1, 3, 1, 2];
/// S -> 1 and B -> 1, which is not reached.
const USELESS: [u16; 10] = [3, 2, 2, 2, 3, 4, 1, 1, 1, 1];

fn numbers(terminals: usize, nonterminals: usize, productions: &[(usize, &[usize])]) -> Vec<u16> {
    let productions = productions.iter().map(|(left, right)| (*left, right.to_vec())).collect();
    Card { terminals, nonterminals, productions }.numbers()
}

/// One production of so many terminals.
fn long(length: usize) -> Vec<u16> {
    numbers(2, 1, &[(2, &vec![1; length])])
}

#[test]
fn examples_written_out() {
    let samples = |card: &[u16]| -> Vec<Vec<u8>> {
        (0..card[2].into()).map(|production| sample(card, production, 255).unwrap()).collect()
    };
    assert_eq!(samples(&A), [vec![2, 1], vec![2]]);
    // S -> 1 B 2, B -> 3 S, B -> empty
    let around = numbers(4, 2, &[(4, &[1, 5, 2]), (5, &[3, 4]), (5, &[])]);
    assert_eq!(samples(&around), [vec![1, 2], vec![1, 3, 1, 2, 2], vec![1, 2]]);
    // S -> B C, B -> 1 | 1 1, C -> 2 | S: the context of C is its shortest B
    let both: &[(usize, &[usize])] = &[(3, &[4, 5]), (4, &[1]), (4, &[1, 1]), (5, &[2]), (5, &[3])];
    let all = [vec![1, 2], vec![1, 2], vec![1, 1, 2], vec![1, 2], vec![1, 1, 2]];
    assert_eq!(samples(&numbers(3, 3, both)), all);
    // S -> B, B -> S, B -> empty
    let cycle = numbers(1, 2, &[(1, &[2]), (2, &[1]), (2, &[])]);
    assert_eq!(samples(&cycle), [vec![0u8; 0], vec![], vec![]]);
}

#[test]
fn refusals_come_in_order() {
    assert_eq!(sample(&[], 9, 254), Err(Refusal::Area));
    assert_eq!(sample(&[], 9, 255), Err(Refusal::Card(4, 0)));
    assert_eq!(sample(&USELESS, 9, 0), Err(Refusal::Area));
    assert_eq!(sample(&USELESS, 9, 255), Err(Refusal::Card(10, 4)));
    assert_eq!(sample(&A, 2, 254), Err(Refusal::Area));
    for production in [2, 65_536, 1 << 32, 1 << 63, u64::MAX] {
        assert_eq!(sample(&A, production, 255), Err(Refusal::Production));
    }
    assert_eq!(sample(&long(256), 0, 254), Err(Refusal::Area));
    assert_eq!(sample(&long(256), 1, 255), Err(Refusal::Production));
    assert_eq!(sample(&long(256), 0, 255), Err(Refusal::Long));
    assert_eq!(sample(&long(255), 0, 255), Ok(vec![1; 255]));
    let told = [Refusal::Area, Refusal::Card(10, 4), Refusal::Production, Refusal::Long];
    assert_eq!(told.map(|refusal| out(&Err(refusal))), [[47, 0], [10, 4], [48, 0], [49, 0]]);
}

#[test]
fn answers_and_what_is_left() {
    let mut area = [7; 300];
    assert_eq!(call(&A, 0, &mut area), [0, 2]);
    assert_eq!(area[..3], [2, 1, 0]);
    assert_eq!(area[3..255], [0; 252]);
    assert_eq!(area[255..], [7; 45]);
    let mut area = [7; 255];
    assert_eq!(call(&A, 2, &mut area), [48, 0]);
    assert_eq!(call(&long(256), 0, &mut area), [49, 0]);
    assert_eq!(call(&USELESS, 0, &mut area), [10, 4]);
    assert_eq!(call(&A, 0, &mut area[..254]), [47, 0]);
    assert_eq!(area, [7; 255]);
}

/// Nonterminals of which each is so many times the next; the last is a string of ones.
fn times(nonterminals: usize, times: usize, last: usize) -> Card {
    let right = |j| if j == nonterminals - 1 { vec![1; last] } else { vec![3 + j; times] };
    let productions = (0..nonterminals).map(|j| (2 + j, right(j))).collect();
    Card { terminals: 2, nonterminals, productions }
}

#[test]
fn doubling_nonterminals() {
    for production in 0..60 {
        assert_eq!(sample(&times(60, 2, 0).numbers(), production, 255), Ok(vec![]));
        assert_eq!(sample(&times(60, 8, 1).numbers(), production, 255), Err(Refusal::Long));
    }
    assert_eq!(sample(&times(8, 2, 1).numbers(), 7, 255), Ok(vec![1; 128]));
    assert_eq!(sample(&times(9, 2, 1).numbers(), 0, 255), Err(Refusal::Long));
    // What is far is not told exactly, but stays far: 8^59 is more than there is room for.
    assert!(Samples::new(&times(60, 8, 1)).least(59) > 1 << 64);
    assert_eq!(Samples::new(&times(60, 2, 1)).least(59), 1 << 59);
}

/// A random card without useless nonterminals.
fn card(random: &mut Random, terminals: usize, most: usize) -> Card {
    loop {
        let n = random.between(1, most);
        let empty = random.chance(70);
        let productions = (0..random.between(n, 2 * n + 2))
            .map(|p| {
                let left = terminals + if p < n { p } else { random.below(n) };
                let length = random.between(usize::from(!empty), 3);
                (left, (0..length).map(|_| random.between(1, terminals + n - 1)).collect())
            })
            .collect();
        let card = Card { terminals, nonterminals: n, productions };
        if useless(&card).is_none() {
            return card;
        }
    }
}

/// The sample of a production is the first that is listed, or as short, and where none is
/// listed it is longer than what is; its length.
fn compare(listing: &Listing, card: &Card, production: usize) -> usize {
    let found = Samples::new(card);
    let (least, sentence) = (found.least(production), found.sentence(production));
    assert_eq!(least, sentence.len() as u128, "{card:?}, production {production}");
    let listed = listing.using(card, production);
    match listed.first() {
        None => assert!(sentence.len() > listing.longest(), "{card:?}, production {production}"),
        Some(first) => {
            assert_eq!(sentence.len(), first.len(), "{card:?}, production {production}");
            assert!(listed.contains(&sentence.as_slice()), "{card:?}, {production}: {sentence:?}");
        }
    }
    sentence.len()
}

/// Samples of random cards over so many terminals against the listing; how many have each
/// length from 0 to 4.
fn listed(seed: u64, terminals: usize, cards: usize) -> [usize; 5] {
    let mut random = Random::new(seed);
    let listing = Listing::new(terminals);
    let mut seen = [0; 5];
    for _ in 0..cards {
        let card = card(&mut random, terminals, 4);
        for production in 0..card.productions.len() {
            let length = compare(&listing, &card, production);
            seen[length.min(4)] += 1;
        }
    }
    seen
}

#[test]
fn as_all_sentences_of_one_terminal() {
    let seen = listed(21, 2, 1_000);
    assert!(seen.iter().all(|&count| count > 50), "{seen:?}");
}

#[test]
fn as_all_sentences_of_two_terminals() {
    let seen = listed(22, 3, 1_000);
    assert!(seen.iter().all(|&count| count > 50), "{seen:?}");
}

#[test]
fn as_all_sentences_of_three_terminals() {
    let seen = listed(23, 4, 1_000);
    assert!(seen.iter().all(|&count| count > 50), "{seen:?}");
}

/// All lines of at most so many terminals.
fn lines(terminals: usize, longest: usize) -> Vec<Vec<u8>> {
    let mut all = vec![vec![]];
    let mut from = 0;
    while all[from].len() < longest {
        for terminal in 1..terminals {
            all.push([all[from].as_slice(), &[terminal as u8]].concat());
        }
        from += 1;
    }
    all
}

#[test]
fn three_ways_tell_what_is_used() {
    let mut random = Random::new(24);
    let listing = Listing::new(3);
    let lines = lines(3, 4);
    // No derivation uses the production; of a sentence none does; one does.
    let mut seen = [0; 3];
    for _ in 0..600 {
        let card = card(&mut random, 3, 4);
        let grammar = Grammar::new(card.clone());
        let production = random.below(card.productions.len());
        let listed = listing.using(&card, production);
        for line in &lines {
            let found = uses(&card, production, line);
            assert_eq!(found, listed.contains(&line.as_slice()), "{card:?} {production} {line:?}");
            assert_eq!(found, uses_by_twins(&card, production, line), "{card:?} {line:?}");
            let sentence = reference::earley::recognise(&grammar, line).sentence;
            seen[usize::from(sentence) + usize::from(found)] += 1;
            assert!(sentence || !found);
        }
    }
    assert!(seen.iter().all(|&count| count > 500), "{seen:?}");
}

/// A string that is derived by random steps, with the productions used, if it is not too
/// long; the shortest strings end it.
fn drawn(random: &mut Random, card: &Card) -> Option<(Vec<u8>, Vec<usize>)> {
    let chosen = reference::shortest::settled(card).1;
    let free = 1 + random.below(60);
    let (mut string, mut line, mut used) = (vec![card.start()], vec![], vec![]);
    while let Some(symbol) = string.pop() {
        if line.len() + string.len() > MOST || used.len() > 2_000 {
            return None;
        }
        if card.is_terminal(symbol) {
            line.push(symbol as u8);
            continue;
        }
        let of: Vec<usize> =
            (0..card.productions.len()).filter(|&p| card.productions[p].0 == symbol).collect();
        let last = chosen[symbol].expect("every nonterminal is productive");
        let production = if used.len() < free { *random.pick(&of) } else { last };
        used.push(production);
        string.extend(card.productions[production].1.iter().rev());
    }
    Some((line, used))
}

#[test]
fn drawn_derivations_use_their_productions() {
    let mut random = Random::new(25);
    let (mut seen, mut longer) = (0, 0);
    for _ in 0..2_000 {
        let terminals = random.between(2, 6);
        let card = card(&mut random, terminals, 12);
        let samples = Samples::new(&card);
        let Some((line, used)) = drawn(&mut random, &card) else { continue };
        let production = *random.pick(&used);
        assert!(uses(&card, production, &line), "{card:?} {production} {line:?}");
        assert!(samples.least(production) <= line.len() as u128, "{card:?} {production} {line:?}");
        longer += usize::from(samples.least(production) < line.len() as u128);
        seen += 1;
    }
    assert!(seen > 1_000 && longer > 500, "{seen} {longer}");
}

/// A chain of nonterminals with terminals beside them, and some productions more.
fn chain(random: &mut Random) -> Card {
    let (terminals, n) = (random.between(2, 64), random.between(2, 60));
    let mut card = Card { terminals, nonterminals: n, productions: vec![] };
    for which in 0..random.between(n, 2 * n) {
        let next = if which < n { which + 1 } else { random.below(n) };
        let mut right: Vec<usize> = (next < n).then_some(terminals + next).into_iter().collect();
        for _ in 0..random.below(3) {
            right.insert(random.below(right.len() + 1), random.between(1, terminals - 1));
        }
        card.productions.push((terminals + which % n, right));
    }
    card
}

#[test]
fn samples_of_larger_cards_use_their_productions() {
    let mut random = Random::new(26);
    let mut seen = 0;
    for _ in 0..60 {
        let card = chain(&mut random);
        assert_eq!(useless(&card), None);
        let samples = Samples::new(&card);
        for production in 0..card.productions.len() {
            if samples.least(production) <= 40 {
                let line = samples.sentence(production);
                assert_eq!(line.len() as u128, samples.least(production));
                assert!(uses(&card, production, &line), "{card:?} {production} {line:?}");
                assert!(uses_by_twins(&card, production, &line), "{card:?} {production} {line:?}");
                seen += 1;
            }
        }
    }
    assert!(seen > 1_000, "{seen}");
}

#[test]
fn lines_that_are_no_sentence() {
    let a = checked(&A).unwrap();
    for line in [&[2, 1][..], &[2, 1, 1], &[2]] {
        assert!(uses(&a, 0, line) == (line.len() > 1) && uses(&a, 1, line), "{line:?}");
    }
    for line in [&[][..], &[1], &[1, 2], &[2, 0], &[0], &[2, 3], &[3], &[2, 200]] {
        assert!(!uses(&a, 0, line) && !uses(&a, 1, line), "{line:?}");
    }
    let long = checked(&long(255)).unwrap();
    assert!(uses(&long, 0, &[1; 255]) && !uses(&long, 0, &[1; 254]));
    // S -> S S, S -> 1: each sentence from two ones on uses both
    let twice = checked(&numbers(2, 1, &[(2, &[2, 2]), (2, &[1])])).unwrap();
    assert!(uses(&twice, 0, &[1; 255]) && uses(&twice, 1, &[1; 255]) && !uses(&twice, 0, &[1]));
}

#[test]
fn twins_written_out() {
    // S -> B 1 S, B -> empty: with production 1
    let card = checked(&numbers(2, 2, &[(2, &[3, 1, 2]), (3, &[]), (2, &[1])])).unwrap();
    let twins = vec![
        (2, vec![3, 1, 4]),
        (2, vec![5, 1, 2]),
        (4, vec![5, 1, 4]),
        (3, vec![]),
        (5, vec![]),
        (4, vec![1]),
    ];
    assert_eq!(doubled(&card, 1), Card { terminals: 2, nonterminals: 4, productions: twins });
}

/// A card that the maker refuses with 13 has samples: a sentence with one derivation that
/// uses a production and one that does not.
#[test]
fn conflicts_do_not_matter() {
    // S -> 1, S -> B, B -> 1
    let card = numbers(2, 2, &[(2, &[1]), (2, &[3]), (3, &[1])]);
    assert!(matches!(reference(&card, 2_000, true).answer, Answer::Refused(13, _)));
    for production in 0..3 {
        assert_eq!(sample(&card, production, 255), Ok(vec![1]));
    }
}
