//! Random cards: small ones with empty, unit and cyclic productions, known
//! grammars with a change, large ones up to the limits, damaged ones, and ones whose
//! right sides alone are wrong.

use reference::card::{Card, MAX_NONTERMINALS, MAX_PRODUCTIONS, MAX_SYMBOLS, MAX_TERMINALS};
use reference::grammar::useless;
use reference::random::Random;

type Production = (usize, Vec<usize>);

/// Grammars that tell LALR(1) from what is like it; S is the first nonterminal.
const KNOWN: &[(usize, &[(char, &str)])] = &[
    // terminals are the small letters a, b, .. (1, 2, ..), the rest nonterminals
    (3, &[('S', "Sa"), ('S', "b")]),
    (4, &[('S', "LaR"), ('S', "R"), ('L', "bR"), ('L', "c"), ('R', "L")]),
    (6, &[('S', "aed"), ('S', "aAc"), ('S', "bAd"), ('S', "bec"), ('A', "B"), ('B', "e")]),
    (6, &[('S', "aAd"), ('S', "bBd"), ('S', "aBe"), ('S', "bAe"), ('A', "c"), ('B', "c")]),
    (6, &[('S', "SaT"), ('S', "T"), ('T', "TbF"), ('T', "F"), ('F', "cSd"), ('F', "e")]),
    (4, &[('S', "aSb"), ('S', ""), ('S', "c")]),
    (5, &[('S', "ABC"), ('A', "aA"), ('A', ""), ('B', "bB"), ('B', ""), ('C', "cC"), ('C', "d")]),
    (4, &[('S', "aA"), ('A', "BC"), ('B', ""), ('B', "bB"), ('C', ""), ('C', "cC")]),
    (5, &[('S', "aASb"), ('S', "c"), ('A', "BB"), ('B', "d"), ('B', "")]),
    (5, &[('S', "Aa"), ('S', "bAc"), ('S', "Bc"), ('S', "bBa"), ('A', "d"), ('B', "d")]),
    (5, &[('S', "Aa"), ('S', "bAc"), ('S', "dc"), ('S', "bda"), ('A', "d")]),
    (4, &[('S', "AbAb"), ('S', "BaBa"), ('A', ""), ('B', "")]),
    (3, &[('S', "aSA"), ('S', "b"), ('A', "B"), ('B', "a"), ('B', "A")]),
    (7, &[('S', "L"), ('L', "LI"), ('L', ""), ('I', "aEbSc"), ('I', "d"), ('E', "E"), ('E', "f")]),
    (6, &[('S', "aXbYc"), ('X', "XY"), ('X', ""), ('Y', "d"), ('Y', "eZ"), ('Z', "")]),
    (5, &[('S', "XY"), ('X', "aX"), ('X', ""), ('Y', "ZbY"), ('Y', "c"), ('Z', ""), ('Z', "d")]),
    (6, &[('S', "aA"), ('S', "bB"), ('A', "CdA"), ('A', ""), ('B', "CeB"), ('B', ""), ('C', "c")]),
];

fn known(random: &mut Random) -> Card {
    let (terminals, productions) = random.pick(KNOWN);
    let mut nonterminals: Vec<char> = Vec::new();
    for (left, _) in productions.iter() {
        if !nonterminals.contains(left) {
            nonterminals.push(*left);
        }
    }
    let symbol = |c: char| match nonterminals.iter().position(|&known| known == c) {
        Some(nonterminal) => terminals + nonterminal,
        None => 1 + (c as usize - 'a' as usize),
    };
    Card {
        terminals: *terminals,
        nonterminals: nonterminals.len(),
        productions: productions
            .iter()
            .map(|(left, right)| (symbol(*left), right.chars().map(symbol).collect()))
            .collect(),
    }
}

/// How the right sides of a card are drawn, in percent.
struct Style {
    empty: usize,
    unit: usize,
    terminals: usize,
    /// Right sides begin with a terminal.
    guarded: usize,
    longest: usize,
}

fn style(random: &mut Random) -> Style {
    Style {
        empty: *random.pick(&[0, 5, 10, 25, 40]),
        unit: *random.pick(&[0, 0, 10, 20, 40]),
        terminals: *random.pick(&[30, 50, 65, 80]),
        guarded: *random.pick(&[0, 30, 60, 85, 100]),
        longest: random.between(1, 4),
    }
}

fn terminal(random: &mut Random, card: &Card) -> usize {
    random.between(1, card.terminals - 1)
}

fn nonterminal(random: &mut Random, card: &Card) -> usize {
    card.terminals + random.below(card.nonterminals)
}

fn right_side(random: &mut Random, card: &Card, style: &Style) -> Vec<usize> {
    if random.chance(style.empty) {
        return vec![];
    }
    if random.chance(style.unit) {
        return vec![nonterminal(random, card)];
    }
    let length = random.between(1, style.longest);
    (0..length)
        .map(|at| {
            let guard = at == 0 && random.chance(style.guarded);
            if card.terminals > 1 && (guard || random.chance(style.terminals)) {
                terminal(random, card)
            } else {
                nonterminal(random, card)
            }
        })
        .collect()
}

fn symbols_used(card: &Card) -> usize {
    card.productions.iter().map(|(_, right)| right.len()).sum()
}

/// Adds productions and symbols until every nonterminal is of use, as far as
/// the limits allow.
fn repair(random: &mut Random, card: &mut Card) {
    for _ in 0..200 {
        let Some(found) = useless(card) else { return };
        let ends = |right: &Vec<usize>| right.iter().all(|&s| s < card.terminals || s > found);
        let ended = card.productions.iter().any(|(left, right)| *left == found && ends(right));
        if !ended && card.productions.len() < MAX_PRODUCTIONS {
            let short = card.terminals == 1 || random.chance(30);
            let right = if short { vec![] } else { vec![terminal(random, card)] };
            card.productions.push((found, right));
        } else if symbols_used(card) < MAX_SYMBOLS {
            let at = random.below(card.productions.len());
            let (left, right) = &mut card.productions[at];
            if *left != found {
                right.insert(random.below(right.len() + 1), found);
            }
        }
    }
}

fn small(random: &mut Random) -> Card {
    let style = style(random);
    let n = random.between(1, 6);
    let mut card =
        Card { terminals: random.between(1, 7), nonterminals: n, productions: Vec::new() };
    for p in 0..random.between(n, n + 6) {
        let left = if p < n { card.terminals + p } else { nonterminal(random, &card) };
        let right = right_side(random, &card, &style);
        card.productions.push((left, right));
    }
    card
}

/// Each production of a nonterminal begins with a terminal of its own, and few
/// are empty: mostly without conflicts.
fn guarded(random: &mut Random, t: usize, n: usize, p: usize, longest: usize) -> Card {
    let mut card = Card { terminals: t, nonterminals: n, productions: Vec::new() };
    let mut free: Vec<Vec<usize>> = (0..n)
        .map(|_| {
            let mut terminals: Vec<usize> = (1..t).collect();
            random.shuffle(&mut terminals);
            terminals
        })
        .collect();
    let nullable = *random.pick(&[0, 5, 20]);
    let share = *random.pick(&[20, 50, 80]);
    for number in 0..p {
        let which = if number < n { number } else { random.below(n) };
        let Some(guard) = free[which].pop() else {
            continue;
        };
        let mut right = vec![guard];
        for _ in 1..random.between(1, longest) {
            let symbol = if random.chance(share) {
                terminal(random, &card)
            } else {
                nonterminal(random, &card)
            };
            right.push(symbol);
        }
        if symbols_used(&card) + right.len() > MAX_SYMBOLS {
            break;
        }
        if random.chance(nullable) {
            right.clear();
        } else if random.chance(10) {
            right.remove(0);
        }
        card.productions.push((t + which, right));
    }
    card
}

/// Two cards as one: S -> x S1 | y S2, or S -> S1 x S2.
fn joined(random: &mut Random, one: Card, two: Card) -> Card {
    let t = one.terminals.max(two.terminals).max(3);
    let mut card = Card {
        terminals: t,
        nonterminals: 1 + one.nonterminals + two.nonterminals,
        productions: Vec::new(),
    };
    let starts = (t + 1, t + 1 + one.nonterminals);
    if random.chance(70) {
        card.productions.push((t, vec![1, starts.0]));
        card.productions.push((t, vec![2, starts.1]));
    } else {
        card.productions.push((t, vec![starts.0, terminal(random, &card), starts.1]));
    }
    for (part, start) in [(one, starts.0), (two, starts.1)] {
        let moved = |s: usize| {
            if s < part.terminals {
                s
            } else {
                s - part.terminals + start
            }
        };
        for (left, right) in &part.productions {
            card.productions.push((moved(*left), right.iter().map(|&s| moved(s)).collect()));
        }
    }
    card
}

/// A change of one production.
pub fn changed(random: &mut Random, mut card: Card) -> Card {
    let at = random.below(card.productions.len());
    match random.below(7) {
        0 => {
            card.productions.remove(at);
            if card.productions.is_empty() {
                card.productions.push((card.terminals, vec![]));
            }
        }
        1 => {
            let left = nonterminal(random, &card);
            let symbol = random.between(1, card.symbols() - 1);
            card.productions.push((left, vec![symbol]));
        }
        2 => card.productions[at].1.clear(),
        3 => {
            let symbol = random.between(1, card.symbols() - 1);
            let right = &mut card.productions[at].1;
            right.insert(random.below(right.len() + 1), symbol);
        }
        4 => card.productions[at].0 = nonterminal(random, &card),
        5 => {
            let right = &mut card.productions[at].1;
            if !right.is_empty() {
                right.remove(random.below(right.len()));
            }
        }
        _ => {
            let symbol = random.between(1, card.symbols() - 1);
            let right = &mut card.productions[at].1;
            if !right.is_empty() {
                let place = random.below(right.len());
                right[place] = symbol;
            }
        }
    }
    card
}

/// Other numbers for the same grammar, perhaps among more terminals.
pub fn renamed(random: &mut Random, card: Card) -> Card {
    let wide = random.chance(25);
    let t = match wide {
        true if random.chance(40) => MAX_TERMINALS,
        true => random.between(card.terminals, MAX_TERMINALS),
        false => card.terminals,
    };
    let mut terminals: Vec<usize> = (1..t).collect();
    random.shuffle(&mut terminals);
    if wide && random.chance(50) {
        // The highest terminal is one of those in use.
        if let Some(at) = terminals.iter().position(|&s| s == t - 1) {
            let used = (card.terminals - 1).max(1);
            terminals.swap(random.below(used), at);
        }
    }
    let mut nonterminals: Vec<usize> = (1..card.nonterminals).collect();
    random.shuffle(&mut nonterminals);
    let symbol = |s: usize| {
        if s < card.terminals {
            terminals[s - 1]
        } else if s == card.terminals {
            t
        } else {
            t + nonterminals[s - card.terminals - 1]
        }
    };
    let mut productions: Vec<Production> = card
        .productions
        .iter()
        .map(|(left, right)| (symbol(*left), right.iter().map(|&s| symbol(s)).collect()))
        .collect();
    if random.chance(50) {
        random.shuffle(&mut productions);
    }
    Card { terminals: t, nonterminals: card.nonterminals, productions }
}

/// Large cards: many terminals, nonterminals and productions.
fn large(random: &mut Random) -> Card {
    let t = random.between(20, MAX_TERMINALS);
    let n = random.between(10, MAX_NONTERMINALS);
    let p = random.between(n, MAX_PRODUCTIONS);
    if random.chance(70) {
        let longest = random.between(1, 4);
        let mut card = guarded(random, t, n, p, longest);
        repair(random, &mut card);
        card
    } else {
        let mut style = style(random);
        style.longest = random.between(1, 5);
        let mut card = Card { terminals: t, nonterminals: n, productions: Vec::new() };
        for number in 0..p {
            let which = if number < n { number } else { random.below(n) };
            let right = right_side(random, &card, &style);
            if symbols_used(&card) + right.len() > MAX_SYMBOLS {
                break;
            }
            card.productions.push((t + which, right));
        }
        repair(random, &mut card);
        card
    }
}

/// A chain of productions entered by many contexts: about as many nonterminal
/// transitions as are allowed.
fn crowded(random: &mut Random) -> Card {
    let n = random.between(50, MAX_NONTERMINALS);
    let wanted = match random.chance(70) {
        true => random.between(2_046, 2_051),
        false => random.between(1_900, 2_200),
    };
    let tails = random.chance(30);
    // A context that enters the chain at a nonterminal has transitions on it and
    // all behind it; so has the first state.
    let mut entered = Vec::new();
    let mut missing = wanted - n;
    while missing > 0 && entered.len() < MAX_TERMINALS - 2 {
        let few = if random.chance(60) { n } else { random.between(n / 2, n) };
        entered.push(n - few.min(missing));
        missing -= few.min(missing);
    }
    let t = entered.len() + 2;
    let mut productions: Vec<Production> = (0..n - 1)
        .map(|which| {
            let tail = tails && random.chance(50);
            let tail = tail.then(|| random.between(1, t - 1));
            (t + which, [t + which + 1].into_iter().chain(tail).collect())
        })
        .collect();
    for (context, which) in entered.iter().enumerate() {
        productions.push((t + n - 1, vec![context + 1, t + which]));
    }
    productions.push((t + n - 1, vec![t - 1]));
    if random.chance(20) {
        productions.push(random.pick(&productions).clone());
    }
    random.shuffle(&mut productions);
    Card { terminals: t, nonterminals: n, productions }
}

/// One long production, about as long as is allowed, perhaps with a nonterminal
/// in it.
fn long(random: &mut Random) -> Card {
    let t = random.between(2, 4);
    if random.chance(50) {
        let length = random.between(253, 256);
        let right = (0..length).map(|_| random.between(1, t - 1)).collect();
        return Card { terminals: t, nonterminals: 1, productions: vec![(t, right)] };
    }
    let length = random.between(240, 257);
    let mut card = Card { terminals: t, nonterminals: 2, productions: Vec::new() };
    let right = (0..length)
        .map(|_| if random.chance(5) { t + 1 } else { terminal(random, &card) })
        .collect();
    card.productions.push((t, right));
    card.productions.push((t + 1, vec![1]));
    card.productions.push((t, vec![t + 1]));
    if random.chance(50) {
        card.productions.remove(2);
    }
    if random.chance(30) {
        card.productions[1].1.clear();
    }
    card
}

/// Changes the numbers of a card so that a refusal from 4 to 9 applies, perhaps.
pub fn damaged(random: &mut Random, numbers: &mut Vec<u16>) {
    let size = |numbers: &Vec<u16>, at: usize| numbers.get(at).map_or(0, |&n| n as usize);
    let (t, n) = (size(numbers, 0), size(numbers, 1));
    let (p, l) = (size(numbers, 2), size(numbers, 3));
    let high = |random: &mut Random| *random.pick(&[(t + n) as u16, (t + n + 1) as u16, 65_535]);
    let place = |random: &mut Random, from: usize, count: usize| {
        if count == 0 {
            from
        } else {
            from + random.below(count)
        }
    };
    match random.below(8) {
        0 => numbers.truncate(random.below(4)),
        1 => {
            let at = random.below(4);
            let limit = [MAX_TERMINALS, MAX_NONTERMINALS, MAX_PRODUCTIONS, MAX_SYMBOLS][at];
            let value = *random.pick(&[0, limit as u16 + 1, 65_535, 32_768, 256]);
            if let Some(number) = numbers.get_mut(at) {
                *number = value;
            }
        }
        2 => {
            if random.chance(50) {
                numbers.pop();
            } else {
                let more = *random.pick(&[1, 1, 2, 700]);
                numbers.extend((0..more).map(|_| random.below(70) as u16));
            }
        }
        3 => {
            let at = random.below(4);
            if let Some(number) = numbers.get_mut(at) {
                *number = number.wrapping_add(*random.pick(&[1, 65_535]));
            }
        }
        4 => {
            let at = place(random, 4, p);
            let low = random.below(t.max(1)) as u16;
            let value = if random.chance(50) { low } else { high(random) };
            if let Some(number) = numbers.get_mut(at) {
                *number = value;
            }
        }
        5 => {
            let (one, two) = (place(random, 4 + p, p), place(random, 4 + p, p));
            let by = *random.pick(&[1, 2, 32_768, 65_535]);
            if let Some(number) = numbers.get_mut(one) {
                *number = number.wrapping_add(by);
            }
            // The sum is right again, perhaps only in 16 bits.
            if random.chance(40) {
                if let Some(number) = numbers.get_mut(two) {
                    *number = number.wrapping_sub(by);
                }
            }
        }
        6 => {
            let at = place(random, 4 + 2 * p, l);
            let value = if random.chance(50) { 0 } else { high(random) };
            if let Some(number) = numbers.get_mut(at) {
                *number = value;
            }
        }
        _ => {
            let at = random.below(numbers.len().max(1));
            if let Some(number) = numbers.get_mut(at) {
                *number = random.draw() as u16;
            }
        }
    }
}

/// The first, the last or any of `count` places.
fn end_or_any(random: &mut Random, count: usize) -> usize {
    match random.below(3) {
        0 => 0,
        1 => count - 1,
        _ => random.below(count),
    }
}

/// Lengths of `p` right sides that add up to `l`: alike, as they come, or all in
/// one of them.
pub fn lengths(random: &mut Random, p: usize, l: usize) -> Vec<usize> {
    match random.below(3) {
        0 => (0..p).map(|at| l / p + usize::from(at < l % p)).collect(),
        1 => {
            let mut cuts: Vec<usize> = (1..p).map(|_| random.below(l + 1)).collect();
            cuts.extend([0, l]);
            cuts.sort_unstable();
            cuts.windows(2).map(|cut| cut[1] - cut[0]).collect()
        }
        _ => {
            let filled = end_or_any(random, p);
            (0..p).map(|at| if at == filled { l } else { 0 }).collect()
        }
    }
}

/// Changes lengths so that they do not add up to `l`.
fn wrong_lengths(random: &mut Random, lengths: &mut [usize], l: usize) {
    let (p, most) = (lengths.len(), 65_535);
    while lengths.iter().sum::<usize>() == l {
        let (one, two) = (random.below(p), random.below(p));
        match random.below(7) {
            0 => lengths[one] += 1,
            1 => lengths[one] = lengths[one].saturating_sub(1),
            2 => lengths[one] = random.below(lengths[one] + 1),
            3 => lengths[one] = most,
            // Right in 16 bits only: with a length of 65,535, or 32,768 added twice.
            4 if one != two => {
                lengths[two] += lengths[one] + 1;
                lengths[one] = most;
            }
            5 if one != two => [one, two].iter().for_each(|&at| lengths[at] += 32_768),
            // Right only without the first or the last one.
            _ => {
                let left_out = *random.pick(&[0, p - 1]);
                if one != left_out {
                    lengths[one] += lengths[left_out];
                    lengths[left_out] = random.between(1, 5);
                }
            }
        }
    }
}

/// A place of a symbol: first, last or any of a production that is the first, the
/// last or any, as far as `l` goes. What is behind the sum counts as a production.
fn symbol_place(random: &mut Random, lengths: &[usize], l: usize) -> usize {
    let mut ends = vec![0];
    for length in lengths.iter().chain([&l]) {
        let from = ends[ends.len() - 1];
        ends.push(l.min(from + length));
    }
    let spans: Vec<&[usize]> = ends.windows(2).filter(|span| span[0] < span[1]).collect();
    let span = spans[end_or_any(random, spans.len())];
    span[0] + end_or_any(random, span[1] - span[0])
}

/// A card with lengths that do not add up, with a bad symbol or with both, and
/// with nothing that is refused before; small ones, and large ones up to the limits.
fn wrong_right_sides(random: &mut Random) -> Vec<u16> {
    let limits = [MAX_TERMINALS, MAX_NONTERMINALS, MAX_PRODUCTIONS, MAX_SYMBOLS];
    let [t, n, p, l] = match random.below(4) {
        0 => limits,
        1 => limits.map(|limit| random.between(1, limit)),
        _ => [5, 5, 5, 12].map(|most| random.between(1, most)),
    };
    let mut lengths = lengths(random, p, l);
    // The lowest and the highest symbol that are good are often there.
    let mut symbols: Vec<usize> = (0..l).map(|_| 1 + end_or_any(random, t + n - 1)).collect();
    let faults = random.below(3);
    if faults != 0 {
        wrong_lengths(random, &mut lengths, l);
    }
    if faults != 1 {
        let at = symbol_place(random, &lengths, l);
        symbols[at] = *random.pick(&[0, t + n, t + n + 1, 65_535]);
    }
    let lefts = (0..p).map(|_| t + random.below(n)).collect();
    [vec![t, n, p, l], lefts, lengths, symbols].concat().iter().map(|&n| n as u16).collect()
}

/// A card whose kind is one of many.
pub fn card(random: &mut Random) -> Vec<u16> {
    if random.chance(1) {
        let length = random.below(16);
        return (0..length).map(|_| random.below(5) as u16).collect();
    }
    if random.chance(2) {
        return wrong_right_sides(random);
    }
    let kind = random.below(1_000);
    let mut card = match kind {
        0..=11 => large(random),
        12..=16 => crowded(random),
        17..=19 => long(random),
        20..=299 => known(random),
        300..=549 => {
            let (t, n) = (random.between(2, 9), random.between(1, 6));
            let (p, longest) = (random.between(n, n + 6), random.between(1, 4));
            guarded(random, t, n, p, longest)
        }
        550..=599 => {
            let (one, two) = (known(random), small(random));
            joined(random, one, two)
        }
        600..=649 => {
            let (one, two) = (known(random), known(random));
            joined(random, one, two)
        }
        _ => small(random),
    };
    if kind >= 20 {
        for _ in 0..*random.pick(&[0, 0, 1, 1, 1, 2, 3]) {
            card = changed(random, card);
        }
        if random.chance(85) {
            repair(random, &mut card);
        }
        if random.chance(4) && card.productions.len() < MAX_PRODUCTIONS {
            let twin = random.pick(&card.productions).clone();
            let at = random.below(card.productions.len() + 1);
            card.productions.insert(at, twin);
        }
    }
    if random.chance(3) && card.nonterminals < MAX_NONTERMINALS {
        // A nonterminal without productions, perhaps reached.
        let fresh = card.symbols();
        card.nonterminals += 1;
        if random.chance(50) {
            let at = random.below(card.productions.len());
            card.productions[at].1.push(fresh);
        }
    }
    if random.chance(60) {
        card = renamed(random, card);
    }
    let mut numbers = card.numbers();
    if random.chance(10) {
        for _ in 0..random.between(1, 2) {
            damaged(random, &mut numbers);
        }
    }
    numbers
}
