//! The membership tests against sentences found by making all steps.

use std::collections::HashSet;

use reference::card::Card;
use reference::derivation::{is_rightmost, sentence, Shortest};
use reference::earley::recognise;
use reference::grammar::{useless, Grammar};
use reference::random::Random;
use reference::spans::{follow, Derivations, Spans};

/// A random card without useless nonterminals.
fn card(random: &mut Random) -> Card {
    loop {
        let (t, n) = (random.between(2, 4), random.between(1, 3));
        let productions = (0..random.between(n, 7))
            .map(|p| {
                let left = t + if p < n { p } else { random.below(n) };
                let length = random.between(0, 3);
                (left, (0..length).map(|_| random.between(1, t + n - 1)).collect())
            })
            .collect();
        let card = Card { terminals: t, nonterminals: n, productions };
        if useless(&card).is_none() {
            return card;
        }
    }
}

/// All strings of at most `longest` symbols that steps make of the start; with
/// strings cut at that length some sentences may be missing.
fn strings(card: &Card, longest: usize) -> HashSet<Vec<usize>> {
    let mut found = HashSet::from([vec![card.start()]]);
    let mut waiting = vec![vec![card.start()]];
    while let Some(string) = waiting.pop() {
        for (at, &symbol) in string.iter().enumerate() {
            for (left, right) in &card.productions {
                if *left == symbol {
                    let mut next = string[..at].to_vec();
                    next.extend(right);
                    next.extend(&string[at + 1..]);
                    if next.len() <= longest && found.insert(next.clone()) {
                        waiting.push(next);
                    }
                }
            }
        }
    }
    found
}

/// All inputs of at most `longest` terminals.
fn inputs(card: &Card, longest: usize) -> Vec<Vec<u8>> {
    let mut all = vec![vec![]];
    let mut from = 0;
    while all[from].len() < longest && card.terminals > 1 {
        for terminal in 1..card.terminals {
            let mut next: Vec<u8> = all[from].clone();
            next.push(terminal as u8);
            all.push(next);
        }
        from += 1;
    }
    all
}

#[test]
fn three_ways_agree() {
    let mut random = Random::new(5);
    let mut seen = [0; 3];
    for _ in 0..400 {
        let card = card(&mut random);
        let grammar = Grammar::new(card.clone());
        let known = strings(&card, 6);
        for input in inputs(&card, 4) {
            let by_steps = known.contains(&input.iter().map(|&m| m as usize).collect::<Vec<_>>());
            let found = recognise(&grammar, &input);
            let spans = Spans::new(&grammar, &input);
            assert_eq!(found.sentence, spans.sentence(), "{card:?} {input:?}");
            assert_eq!(found.begins == input.len(), spans.begins(), "{card:?} {input:?}");
            let before = &input[..found.begins];
            assert_eq!(found.follow, follow(&grammar, before), "{card:?} {input:?}");
            assert!(found.sentence || !by_steps, "{card:?} {input:?}");
            // What the cut-off search lacks needs strings longer than 6.
            if found.sentence && !by_steps {
                assert!(grammar.nullable.iter().any(|&n| n), "{card:?} {input:?}");
            }
            seen[spans.derivations() as usize] += 1;
        }
    }
    assert!(seen.iter().all(|&count| count > 500), "{seen:?}");
}

#[test]
fn numbers_of_derivations() {
    let count = |productions: Vec<(usize, Vec<usize>)>, n: usize, input: &[u8]| {
        let grammar = Grammar::new(Card { terminals: 3, nonterminals: n, productions });
        Spans::new(&grammar, input).derivations()
    };
    // S -> S S | 1
    let twice = vec![(3, vec![3, 3]), (3, vec![1])];
    assert_eq!(count(twice.clone(), 1, &[1, 1]), Derivations::One);
    assert_eq!(count(twice.clone(), 1, &[1, 1, 1]), Derivations::Many);
    assert_eq!(count(twice, 1, &[2]), Derivations::None);
    // S -> S | 1: a cycle
    assert_eq!(count(vec![(3, vec![3]), (3, vec![1])], 1, &[1]), Derivations::Many);
    // S -> 1 | 1: twins
    assert_eq!(count(vec![(3, vec![1]), (3, vec![1])], 1, &[1]), Derivations::Many);
    // S -> A A, A -> empty | 1
    let pair = vec![(3, vec![4, 4]), (4, vec![]), (4, vec![1])];
    assert_eq!(count(pair.clone(), 2, &[]), Derivations::One);
    assert_eq!(count(pair.clone(), 2, &[1]), Derivations::Many);
    assert_eq!(count(pair, 2, &[1, 1]), Derivations::One);
}

#[test]
fn drawn_sentences_are_sentences() {
    let mut random = Random::new(6);
    let mut drawn = 0;
    for _ in 0..2_000 {
        let grammar = Grammar::new(card(&mut random));
        let shortest = Shortest::new(&grammar);
        if let Some(input) = sentence(&grammar, &shortest, &mut random, 20) {
            assert!(recognise(&grammar, &input).sentence);
            drawn += 1;
        }
    }
    assert!(drawn > 1_000);
}

#[test]
fn rightmost_derivations() {
    // S -> S 1, S -> 2
    let productions = vec![(3, vec![3, 1]), (3, vec![2])];
    let grammar = Grammar::new(Card { terminals: 3, nonterminals: 1, productions });
    assert!(is_rightmost(&grammar, [0, 1].into_iter(), &[2, 1]));
    assert!(!is_rightmost(&grammar, [1, 0].into_iter(), &[2, 1]));
    assert!(!is_rightmost(&grammar, [0].into_iter(), &[2, 1]));
    assert!(!is_rightmost(&grammar, [0, 1].into_iter(), &[2, 1, 1]));
    assert!(!is_rightmost(&grammar, [0, 9].into_iter(), &[2, 1]));
}
