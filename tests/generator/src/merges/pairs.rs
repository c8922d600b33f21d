//! Random pairs of cards: any two, mostly with the same T, one card twice, cards with
//! terminals of their own, sums of sizes about each limit, and damaged ones; and areas of
//! all lengths.

use reference::card::{parse, Card, MAX_TERMINALS};
use reference::random::Random;

use crate::cards;

/// Two cards and the length of the area.
#[derive(Clone)]
pub struct Pair {
    pub first: Vec<u16>,
    pub second: Vec<u16>,
    pub room: usize,
    /// The second card is read from the memory of the first, from this place on.
    pub second_at: Option<usize>,
}

impl Pair {
    /// The length of the merged card, if there is one.
    pub fn need(&self) -> usize {
        self.first.len() + self.second.len() + 2
    }
}

/// The same grammar among so many terminals.
fn widened(card: &Card, terminals: usize) -> Card {
    let symbol = |&s: &usize| if s < card.terminals { s } else { s - card.terminals + terminals };
    let production = |(left, right): &(usize, Vec<usize>)| {
        (symbol(left), right.iter().map(symbol).collect::<Vec<_>>())
    };
    let productions = card.productions.iter().map(production).collect();
    Card { terminals, nonterminals: card.nonterminals, productions }
}

/// Any two cards; where they have no fault of form, mostly with the same T.
fn any(random: &mut Random) -> [Vec<u16>; 2] {
    let cards = [0, 1].map(|_| cards::card(random));
    match [parse(&cards[0]), parse(&cards[1])] {
        [Ok(one), Ok(two)] if random.chance(85) => {
            let terminals = one.terminals.max(two.terminals);
            [one, two].map(|card| widened(&card, terminals).numbers())
        }
        _ => cards,
    }
}

/// A symbol for production number `which`, by which no nonterminal of the chain comes to
/// lack an end: a terminal, one further down the chain, or any.
fn symbol(random: &mut Random, card: &Card, which: usize) -> Option<usize> {
    let lowest = if which < card.nonterminals { which + 1 } else { 0 };
    let mut choices = Vec::new();
    if card.terminals > 1 {
        choices.push(random.between(1, card.terminals - 1));
    }
    if lowest < card.nonterminals {
        choices.push(card.terminals + random.between(lowest, card.nonterminals - 1));
    }
    (!choices.is_empty()).then(|| *random.pick(&choices))
}

/// A card of just these sizes, as far as there are symbols to take, in which each
/// nonterminal is reached and derives something: a chain, and any productions behind it.
pub fn sized(random: &mut Random, [t, n, p, l]: [usize; 4]) -> Card {
    let mut card = Card { terminals: t, nonterminals: n, productions: Vec::new() };
    for which in 0..p {
        let left = if which < n { which } else { random.below(n) };
        let next = (which + 1 < n).then_some(t + which + 1);
        card.productions.push((t + left, next.into_iter().collect()));
    }
    let few = random.between(1, p);
    for _ in n - 1..l {
        let which = if random.chance(50) { random.below(p) } else { p - 1 - random.below(few) };
        if let Some(symbol) = symbol(random, &card, which) {
            let right = &mut card.productions[which].1;
            right.insert(random.below(right.len() + 1), symbol);
        }
    }
    if random.chance(50) {
        random.shuffle(&mut card.productions);
    }
    card
}

/// A part of a sum: none, all or any.
fn part(random: &mut Random, sum: usize) -> usize {
    match random.below(4) {
        0 => 0,
        1 => sum,
        _ => random.between(0, sum),
    }
}

/// Two cards of which one, two or all three sums of sizes are about the limit.
fn limits(random: &mut Random) -> [Vec<u16>; 2] {
    let about = random.between(1, 7);
    let mut sum = |which: usize, limit: usize, least: usize, most: usize| {
        let sum = match about >> which & 1 {
            1 => limit - 1 + random.below(4),
            _ => least + random.below(most),
        };
        sum.max(least)
    };
    // Without the new start, its productions and their symbols.
    let n = sum(0, 59, 2, 10);
    let p = sum(1, 126, n, 12);
    let l = sum(2, 510, n - 2, 40);
    let one = 1 + part(random, n - 2);
    let (more, symbols) = (part(random, p - n), part(random, l + 2 - n));
    let t = *random.pick(&[1, 2, 3, 5, 20, 64]);
    let other = if random.chance(10) { random.between(1, MAX_TERMINALS) } else { t };
    let first = [t, one, one + more, one - 1 + symbols];
    let second = [other, n - one, p - first[2], l - first[3]];
    [first, second].map(|sizes| sized(random, sizes).numbers())
}

/// Both with many productions, or with empty ones alone.
fn plain(random: &mut Random) -> [Vec<u16>; 2] {
    let many = random.chance(50);
    let t = random.between(1, 5);
    [0, 1].map(|_| {
        let p = if many { random.between(127, 128) } else { random.between(1, 5) };
        let (n, l) = if many { (random.between(1, 5), random.between(5, 60)) } else { (1, 0) };
        sized(random, [t, n, p, l]).numbers()
    })
}

/// Two cards without a fault of form, each with terminals of its own: mostly the merged
/// card has a table where each of them has one.
fn apart(random: &mut Random) -> [Vec<u16>; 2] {
    let cards = [0, 1].map(|_| cards::card(random));
    let [Ok(one), Ok(two)] = [parse(&cards[0]), parse(&cards[1])] else { return cards };
    let terminals = one.terminals + two.terminals - 1;
    if terminals > MAX_TERMINALS {
        return cards;
    }
    let mut other = widened(&two, terminals);
    for symbol in other.productions.iter_mut().flat_map(|(_, right)| right) {
        if *symbol < two.terminals {
            *symbol += one.terminals - 1;
        }
    }
    [widened(&one, terminals).numbers(), other.numbers()]
}

/// The places of an area for a merged card of so many numbers.
fn room(random: &mut Random, need: usize) -> usize {
    match random.below(300) {
        0..=1 => 65_536 + random.below(2 * need),
        2..=20 => 0,
        21..=60 => need - 1,
        61..=70 => need - 2,
        71..=100 => random.below(need),
        101..=120 => need + 1,
        121..=140 => 772,
        141..=160 => need + random.below(1_000),
        161..=190 => need + random.below(20),
        _ => need,
    }
}

/// Two cards that stay or are damaged.
fn cards(random: &mut Random) -> [Vec<u16>; 2] {
    let mut cards = match random.below(100) {
        0..=19 => limits(random),
        20..=29 => {
            let card = cards::card(random);
            [card.clone(), card]
        }
        30..=46 => apart(random),
        47..=48 => plain(random),
        _ => any(random),
    };
    for numbers in &mut cards {
        if random.chance(5) {
            cards::damaged(random, numbers);
        }
        if random.below(800) == 0 {
            let behind = random.draw() as u16;
            numbers.extend([behind; 65_536]);
        }
    }
    cards
}

pub fn pair(random: &mut Random) -> Pair {
    let [first, second] = cards(random);
    let second_at = (first == second && random.chance(50)).then_some(0);
    let mut pair = Pair { first, second, room: 0, second_at };
    pair.room = room(random, pair.need().min(2_000));
    pair
}

/// Small cards with the same T, at times one card twice; the area has some places more
/// than it needs.
pub fn small(random: &mut Random) -> Pair {
    loop {
        let [first, second] = any(random);
        let again = random.chance(20);
        let second = if again { first.clone() } else { second };
        let room = first.len() + second.len() + 12;
        let second_at = (again && random.chance(50)).then_some(0);
        let pair = Pair { first, second, room, second_at };
        if room < 120 && reference::merge::merge(&pair.first, &pair.second, room).is_ok() {
            return pair;
        }
    }
}
