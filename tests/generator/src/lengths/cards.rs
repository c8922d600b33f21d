//! Random cards for the lengths, as far as the card's form goes: productions of any
//! kind, lengths about the cap and far above it, long chains, and damaged cards.

use reference::card::{Card, MAX_NONTERMINALS, MAX_PRODUCTIONS, MAX_SYMBOLS, MAX_TERMINALS};
use reference::random::Random;

use crate::cards;

fn empty_card(terminals: usize, nonterminals: usize) -> Card {
    Card { terminals, nonterminals, productions: Vec::new() }
}

fn terminals(random: &mut Random, card: &Card, count: usize) -> Vec<usize> {
    (0..count).map(|_| random.between(1, card.terminals - 1)).collect()
}

fn nonterminal(random: &mut Random, card: &Card) -> usize {
    card.terminals + random.below(card.nonterminals)
}

/// Adds a production where the limits allow it.
fn add(card: &mut Card, left: usize, right: Vec<usize>) {
    let used: usize = card.productions.iter().map(|(_, right)| right.len()).sum();
    if card.productions.len() < MAX_PRODUCTIONS && used + right.len() <= MAX_SYMBOLS {
        card.productions.push((left, right));
    }
}

/// Productions of any kind: some nonterminals derive nothing, some are not reached.
fn any(random: &mut Random) -> Card {
    let limits = [MAX_TERMINALS, MAX_NONTERMINALS, MAX_PRODUCTIONS, MAX_SYMBOLS];
    let [t, n, p, l] = match random.below(5) {
        0 => limits,
        1 => limits.map(|limit| random.between(1, limit)),
        _ => [4, 6, 12, 24].map(|most| random.between(1, most)),
    };
    let mut card = empty_card(t, n);
    let share = *random.pick(&[5, 15, 30, 60]);
    for length in cards::lengths(random, p, l) {
        let right = (0..length)
            .map(|_| match t == 1 || random.chance(share) {
                true => nonterminal(random, &card),
                false => random.between(1, t - 1),
            })
            .collect();
        let left = nonterminal(random, &card);
        card.productions.push((left, right));
    }
    card
}

/// A length to be reached: about the cap, about a power of two, or any.
fn number(random: &mut Random, base: usize) -> u128 {
    let most = (50 * base.ilog2() as usize).min(120);
    match random.below(4) {
        0 => random.between(65_530, 65_541) as u128,
        1 => {
            let near = [32_767, 32_768, 65_534, 65_535, 65_536, 65_537, 131_071, 131_072];
            *random.pick(&near)
        }
        2 => 1 << random.between(1, most),
        _ => random.between(1, 300_000) as u128,
    }
}

/// Each nonterminal is so many of the one before it and a few terminals, which are
/// the digits of the last one's length.
fn counted(random: &mut Random) -> Card {
    let base = random.between(2, 8);
    let mut digits = Vec::new();
    let mut rest = number(random, base);
    while rest > 0 {
        digits.push((rest % base as u128) as usize);
        rest /= base as u128;
    }
    let mut card = empty_card(random.between(2, 4), digits.len());
    for (which, digit) in digits.into_iter().rev().enumerate() {
        let left = card.terminals + which;
        let mut right = terminals(random, &card, digit);
        right.extend((0..base).filter(|_| which > 0).map(|_| left - 1));
        random.shuffle(&mut right);
        card.productions.push((left, right));
    }
    card
}

/// Each nonterminal is the next one and a few terminals, and perhaps some terminals
/// of its own, which are found sooner, be they more or fewer.
fn chain(random: &mut Random) -> Card {
    let n = match random.chance(30) {
        true => MAX_NONTERMINALS,
        false => random.between(1, MAX_NONTERMINALS),
    };
    let mut card = empty_card(random.between(2, 4), n);
    let (own, behind) = (*random.pick(&[0, 10, 50]), random.below(3));
    for left in card.terminals..card.symbols() {
        let mut right = terminals(random, &card, behind);
        if left + 1 < card.symbols() {
            right.insert(random.below(behind + 1), left + 1);
        }
        add(&mut card, left, right);
        if random.chance(own) {
            let more = random.below(13);
            let right = terminals(random, &card, more);
            add(&mut card, left, right);
        }
    }
    card
}

/// One production more: a longer, an equal or another one, a unit production, or one
/// with a nonterminal that derives nothing.
fn varied(random: &mut Random, card: &mut Card) {
    let (left, mut right) = random.pick(&card.productions).clone();
    match random.below(7) {
        0 => right.push(random.between(1, card.symbols() - 1)),
        1 => random.shuffle(&mut right),
        2 => right = vec![nonterminal(random, card)],
        3 => right = vec![left],
        4 => right = random.pick(&card.productions).1.clone(),
        5 if card.nonterminals < MAX_NONTERMINALS => {
            let fresh = card.symbols();
            card.nonterminals += 1;
            right.push(fresh);
            add(card, fresh, vec![fresh, 1]);
        }
        _ => {
            let count = random.below(9);
            right = terminals(random, card, count);
        }
    }
    add(card, left, right);
}

/// The same with nonterminals and productions in another order.
fn reordered(random: &mut Random, card: Card) -> Card {
    let mut numbers: Vec<usize> = (card.terminals..card.symbols()).collect();
    let mut order = card.productions.clone();
    match random.below(3) {
        0 => random.shuffle(&mut numbers),
        1 => numbers.reverse(),
        _ => {}
    }
    match random.below(3) {
        0 => random.shuffle(&mut order),
        1 => order.reverse(),
        _ => {}
    }
    let symbol = |&s: &usize| if s < card.terminals { s } else { numbers[s - card.terminals] };
    let moved = |(left, right): &(usize, Vec<usize>)| {
        (symbol(left), right.iter().map(symbol).collect::<Vec<_>>())
    };
    Card { productions: order.iter().map(moved).collect(), ..card }
}

/// A card whose kind is one of many.
pub fn card(random: &mut Random) -> Vec<u16> {
    let mut card = match random.below(4) {
        0 => return cards::card(random),
        1 => any(random),
        2 => counted(random),
        _ => chain(random),
    };
    if card.terminals > 1 {
        for _ in 0..*random.pick(&[0, 0, 1, 2, 5]) {
            varied(random, &mut card);
        }
    }
    let mut numbers = reordered(random, card).numbers();
    if random.chance(10) {
        cards::damaged(random, &mut numbers);
    }
    numbers
}
