//! Random calls: cards of any kind, cards whose samples are about as long as they may be or
//! far longer, long chains of contexts, nonterminals that double, cards of the largest
//! sizes, and damaged ones; all numbers of productions, and areas of all lengths.

use reference::card::{Card, MAX_PRODUCTIONS, MAX_SYMBOLS};
use reference::grammar::useless;
use reference::random::Random;
use reference::sample::MOST;

use crate::cards;
use crate::merges::pairs::sized;

/// A card, the number of a production and the length of the area.
#[derive(Clone)]
pub struct Call {
    pub card: Vec<u16>,
    pub production: u64,
    pub room: usize,
}

fn terminals(random: &mut Random, card: &Card, count: usize) -> Vec<usize> {
    (0..count).map(|_| random.between(1, card.terminals - 1)).collect()
}

/// Adds a production where the limits allow it.
fn add(card: &mut Card, left: usize, right: Vec<usize>) {
    let used: usize = card.productions.iter().map(|(_, right)| right.len()).sum();
    if card.productions.len() < MAX_PRODUCTIONS && used + right.len() <= MAX_SYMBOLS {
        card.productions.push((left, right));
    }
}

/// A length to be reached: about the longest of a sample, a little above a power of 256, a
/// power of two, or any.
fn number(random: &mut Random) -> u128 {
    match random.below(5) {
        0 | 1 => random.between(253, 258) as u128,
        2 => (1 << *random.pick(&[8, 16, 32])) + random.below(300) as u128,
        3 => 1 << random.below(60),
        _ => random.below(600) as u128,
    }
}

/// Each nonterminal is so many of the next one and a few terminals, which are the digits of
/// the start's length.
fn counted(random: &mut Random) -> Card {
    let (base, mut rest) = (random.between(2, 8), number(random));
    let mut digits = Vec::new();
    while rest > 0 || digits.is_empty() {
        digits.push((rest % base as u128) as usize);
        rest /= base as u128;
    }
    let t = random.between(2, 4);
    let mut card = Card { terminals: t, nonterminals: digits.len(), productions: vec![] };
    for (which, &digit) in digits.iter().enumerate() {
        let mut right = terminals(random, &card, digit);
        right.extend((0..base).filter(|_| which + 1 < digits.len()).map(|_| t + which + 1));
        random.shuffle(&mut right);
        card.productions.push((t + which, right));
    }
    card
}

/// Each nonterminal is several of the next one, and the last is empty.
fn empty(random: &mut Random) -> Card {
    let (t, n) = (random.between(1, 4), *random.pick(&[2, 5, 20, 60]));
    let times = random.between(1, 4);
    let right = |which| vec![t + which + 1; if which + 1 < n { times } else { 0 }];
    let productions = (0..n).map(|which| (t + which, right(which))).collect();
    Card { terminals: t, nonterminals: n, productions }
}

/// Each nonterminal is the next one among a few terminals, and perhaps some of its own; the
/// last one's terminals bring the whole near to the longest of a sample.
fn chain(random: &mut Random) -> Card {
    let n = *random.pick(&[2, 3, 10, 30, 59, 60]);
    let t = *random.pick(&[2, 3, 5, 64]);
    let mut card = Card { terminals: t, nonterminals: n, productions: vec![] };
    let [most_before, most_behind] = [0, 1].map(|_| *random.pick(&[0, 1, 2]));
    let (own, fill) = (*random.pick(&[0, 10, 40]), random.chance(50));
    let mut around = 0;
    for which in 0..n - 1 {
        let before = terminals(random, &card, most_before);
        let behind = terminals(random, &card, most_behind);
        around += before.len() + behind.len();
        add(&mut card, t + which, [before, vec![t + which + 1], behind].concat());
    }
    let last = if fill { random.between(252, 258).saturating_sub(around) } else { random.below(4) };
    let right = terminals(random, &card, last);
    add(&mut card, t + n - 1, right);
    for which in 0..n {
        if random.chance(own) {
            let count = random.below(6);
            let right = terminals(random, &card, count);
            add(&mut card, t + which, right);
        }
    }
    card
}

/// A short production, and a longer one than a sample or than a table has states.
fn long(random: &mut Random) -> Card {
    let t = random.between(2, 4);
    let mut card = Card { terminals: t, nonterminals: 2, productions: vec![] };
    let short = random.below(3);
    let long = match random.below(10) {
        0..=3 => 255,
        4..=6 => random.between(250, 257),
        _ => random.between(258, 500),
    };
    for (left, count) in [(t, short), (t + 1, long)] {
        let right = terminals(random, &card, count);
        card.productions.push((left, right));
    }
    let mut right = terminals(random, &card, short);
    right.insert(random.below(short + 1), t + 1);
    card.productions.push((t, right));
    card
}

/// Several ways to each nonterminal, of which mostly one is the shortest.
fn ways(random: &mut Random) -> Card {
    let (t, n) = (random.between(3, 6), random.between(3, 8));
    let mut card = Card { terminals: t, nonterminals: n, productions: vec![] };
    for which in 0..n {
        let count = random.below(3);
        let right = terminals(random, &card, count);
        add(&mut card, t + which, right);
    }
    for which in 1..n {
        for _ in 0..random.between(1, 3) {
            let from = t + random.below(which);
            let count = random.below(5);
            let mut right = terminals(random, &card, count);
            for symbol in [t + which, t + random.below(n)].into_iter().take(random.between(1, 2)) {
                right.insert(random.below(right.len() + 1), symbol);
            }
            add(&mut card, from, right);
        }
    }
    card
}

/// One production more: a longer, an equal or another one, or a unit production.
fn varied(random: &mut Random, card: &mut Card) {
    let (left, mut right) = random.pick(&card.productions).clone();
    let any = card.terminals + random.below(card.nonterminals);
    match random.below(6) {
        0 => right.push(random.between(1, card.symbols() - 1)),
        1 => random.shuffle(&mut right),
        2 => right = vec![any],
        3 => right = vec![left],
        4 => right = random.pick(&card.productions).1.clone(),
        _ => {
            let count = random.below(9);
            right = terminals(random, card, count);
        }
    }
    add(card, left, right);
}

/// A card without a fault of form, mostly one past 10, too.
fn made(random: &mut Random) -> Vec<u16> {
    let mut card = match random.below(100) {
        0..=24 => counted(random),
        25..=34 => empty(random),
        35..=64 => chain(random),
        65..=74 => long(random),
        75..=82 => {
            let sizes = *random.pick(&[[64, 60, 128, 512], [64, 1, 128, 512], [1, 60, 128, 512]]);
            return sized(random, sizes).numbers();
        }
        _ => ways(random),
    };
    if card.terminals > 1 {
        for _ in 0..*random.pick(&[0, 0, 1, 2, 5]) {
            varied(random, &mut card);
        }
    }
    cards::renamed(random, card).numbers()
}

/// The number of a production, for a card with so many.
fn production(random: &mut Random, productions: u64) -> u64 {
    let some = random.below(productions.max(1) as usize) as u64;
    match random.below(100) {
        0..=3 => productions,
        4..=5 => productions + 1 + random.below(5) as u64,
        6..=12 => productions.saturating_sub(1),
        13 => 256 + some,
        14 => (1 << 16) + some,
        15 => (1 << 32) + some,
        16 => (1 << 63) + some,
        17 => u64::MAX - random.below(3) as u64,
        18 => *random.pick(&[127, 128, 255, 256, 65_535, 65_536, 1 << 31, (1 << 32) - 1]),
        19 => some << *random.pick(&[8, 16, 32, 56]),
        20 => random.draw(),
        _ => some,
    }
}

/// The bytes of an area.
fn room(random: &mut Random) -> usize {
    match random.below(300) {
        0..=3 => 65_536 + random.below(600),
        4..=9 => 0,
        10..=19 => MOST - 1,
        20..=29 => random.below(MOST),
        30..=69 => MOST + 1,
        70..=89 => MOST + random.below(20),
        90..=99 => MOST + random.below(1_000),
        _ => MOST,
    }
}

pub fn call(random: &mut Random) -> Call {
    let any = random.chance(60);
    let mut card = if any { cards::card(random) } else { made(random) };
    if !any && random.chance(5) {
        cards::damaged(random, &mut card);
    }
    if random.below(500) == 0 {
        let behind = random.draw() as u16;
        card.extend([behind; 65_536]);
    }
    let productions = card.get(2).map_or(0, |&p| p.into());
    let production = production(random, productions);
    Call { card, production, room: room(random) }
}

/// A call for a small card of few terminals that has a sample, in an area with some bytes
/// more than it needs.
pub fn small(random: &mut Random) -> Call {
    loop {
        let card = if random.chance(70) { cards::card(random) } else { ways(random).numbers() };
        let Ok(parsed) = reference::card::parse(&card) else { continue };
        if parsed.terminals > 4 || card.len() > 60 || useless(&parsed).is_some() {
            continue;
        }
        let production = random.below(parsed.productions.len()) as u64;
        return Call { card, production, room: MOST + random.below(20) };
    }
}
