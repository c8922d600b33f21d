//! A card in words: its sizes, its productions, and the first number that is wrong.

use super::input::Numbers;
use super::{count, joined, range};

pub struct Sizes {
    pub t: usize,
    pub n: usize,
    pub p: usize,
    pub l: usize,
}

impl Sizes {
    pub fn of(numbers: &[u16]) -> Option<Sizes> {
        let size = |at: usize| numbers.get(at).map(|&size| usize::from(size));
        Some(Sizes { t: size(0)?, n: size(1)?, p: size(2)?, l: size(3)? })
    }

    /// Each size with its limits.
    fn limits(&self) -> [(char, usize, usize, usize); 4] {
        [('T', self.t, 1, 64), ('N', self.n, 1, 60), ('P', self.p, 1, 128), ('L', self.l, 0, 512)]
    }

    pub fn fit(&self) -> bool {
        self.limits().iter().all(|&(_, size, low, high)| (low..=high).contains(&size))
    }

    pub fn shown(&self) -> String {
        let Sizes { t, n, p, l } = *self;
        let mut out = format!("T {t}, N {n}, P {p}, L {l}\n");
        if self.fit() {
            let of = |one: &str, low: usize, high: usize| match low > high {
                true => String::new(),
                false => format!(", {one}{} {}", if low == high { "" } else { "s" }, range(low, high)),
            };
            let (terminals, others) = (of("terminal", 1, t - 1), of("nonterminal", t + 1, t + n - 1));
            out += &format!("end marker 0{terminals}; start {t}{others}\n");
        }
        out
    }

    /// The sizes that are outside their limits.
    pub fn faults(&self) -> Option<String> {
        let wrong: Vec<String> = self
            .limits()
            .iter()
            .filter(|&&(_, size, low, high)| !(low..=high).contains(&size))
            .map(|(name, size, low, high)| format!("{name} is {size}, and must be {low} to {high}."))
            .collect();
        (!wrong.is_empty()).then(|| wrong.join(" "))
    }

    pub fn length_fault(&self, found: usize) -> Option<String> {
        let Sizes { p, l, .. } = *self;
        let wanted = 4 + 2 * p + l;
        (found != wanted).then(|| {
            format!("With P {p} and L {l} a card has 4 + 2 x {p} + {l} = {wanted} numbers; this one has {found}.")
        })
    }
}

/// The productions, as far as the numbers go; a `?` stands for what is missing.
pub fn productions(numbers: &[u16], sizes: &Sizes) -> String {
    let Sizes { p, .. } = *sizes;
    let mut out = String::new();
    let mut symbols = numbers.get(4 + 2 * p..).unwrap_or(&[]);
    for production in 0..p {
        let left = numbers.get(4 + production).map_or("?".into(), u16::to_string);
        let right = match numbers.get(4 + p + production).map(|&length| usize::from(length)) {
            Some(length) if length <= symbols.len() => {
                let (right, behind) = symbols.split_at(length);
                symbols = behind;
                shown(right)
            }
            Some(_) => {
                let right = joined(std::mem::take(&mut symbols));
                (right + " ?").trim_start().to_string()
            }
            None => "?".into(),
        };
        out += &format!("production {production} : {left} -> {right}\n");
    }
    if !symbols.is_empty() {
        out += &format!("behind the productions : {}\n", joined(symbols));
    }
    out
}

fn shown(right: &[u16]) -> String {
    if right.is_empty() {
        "(empty)".into()
    } else {
        joined(right)
    }
}

/// The first left side that is no nonterminal.
pub fn left_fault(numbers: &Numbers, sizes: &Sizes) -> Option<String> {
    let Sizes { t, n, p, .. } = *sizes;
    let lefts = numbers.values.get(4..4 + p)?;
    let at = lefts.iter().position(|&left| !(t..t + n).contains(&usize::from(left)))?;
    Some(format!(
        "The left side of production {at} is {} ({}); a left side is a nonterminal, {}.",
        lefts[at],
        numbers.place(4 + at),
        range(t, t + n - 1)
    ))
}

/// The first length with which the sum passes L, or how much is missing.
pub fn lengths_fault(numbers: &Numbers, sizes: &Sizes) -> Option<String> {
    let Sizes { p, l, .. } = *sizes;
    let lengths = numbers.values.get(4 + p..4 + 2 * p)?;
    let mut sum = 0;
    for (at, &length) in lengths.iter().enumerate() {
        sum += usize::from(length);
        if sum > l {
            return Some(format!(
                "The lengths must add up to L, {l}; with that of production {at}, {length} ({}), they come to {sum}.",
                numbers.place(4 + p + at)
            ));
        }
    }
    (sum < l).then(|| format!("The lengths must add up to L, {l}; they add up to {sum}."))
}

/// The first symbol that is 0 or at least T + N.
pub fn symbol_fault(numbers: &Numbers, sizes: &Sizes) -> Option<String> {
    let Sizes { t, n, p, .. } = *sizes;
    let symbols = numbers.values.get(4 + 2 * p..)?;
    let at = symbols.iter().position(|&symbol| symbol == 0 || usize::from(symbol) >= t + n)?;
    let lengths = numbers.values.get(4 + p..4 + 2 * p)?;
    let mut before = 0;
    for (production, &length) in lengths.iter().enumerate() {
        if at < before + usize::from(length) {
            return Some(format!(
                "Symbol {} of the right side of production {production} is {} ({}); a symbol is {}{}.",
                at - before + 1,
                symbols[at],
                numbers.place(4 + 2 * p + at),
                range(1, t + n - 1),
                if symbols[at] == 0 { ", and the end marker 0 stands in no right side" } else { "" }
            ));
        }
        before += usize::from(length);
    }
    None
}

/// A card of the right form. The added production, start' -> start, stands behind the others.
pub struct Card {
    pub t: usize,
    pub n: usize,
    pub productions: Vec<(usize, Vec<usize>)>,
}

impl Card {
    pub fn of(numbers: &[u16]) -> Option<Card> {
        let sizes = Sizes::of(numbers)?;
        let Sizes { t, n, p, .. } = sizes;
        if !sizes.fit() || sizes.length_fault(numbers.len()).is_some() {
            return None;
        }
        let mut rest = &numbers[4 + 2 * p..];
        let mut productions = Vec::new();
        for at in 0..p {
            let length = usize::from(numbers[4 + p + at]);
            if length > rest.len() {
                return None;
            }
            let (right, behind) = rest.split_at(length);
            productions.push((usize::from(numbers[4 + at]), right.iter().map(|&s| usize::from(s)).collect()));
            rest = behind;
        }
        let good = |symbol: usize| symbol > 0 && symbol < t + n;
        let formed = rest.is_empty()
            && productions.iter().all(|(left, right): &(usize, Vec<usize>)| {
                *left >= t && good(*left) && right.iter().all(|&symbol| good(symbol))
            });
        formed.then_some(Card { t, n, productions })
    }

    /// The right side of a production, also of the added one.
    pub fn right(&self, production: usize) -> &[usize] {
        match self.productions.get(production) {
            Some((_, right)) => right,
            None => std::slice::from_ref(&self.t),
        }
    }

    pub fn production(&self, production: usize) -> String {
        let (left, right) = &self.productions[production];
        format!("{left} -> {}", if right.is_empty() { "(empty)".into() } else { joined(right) })
    }

    pub fn complete(&self, (production, dot): (usize, usize)) -> bool {
        dot == self.right(production).len()
    }

    /// An item: a production with a dot in its right side.
    pub fn item(&self, (production, dot): (usize, usize)) -> String {
        let left = self.productions.get(production).map_or("start'".into(), |(left, _)| left.to_string());
        let (before, behind) = self.right(production).split_at(dot);
        let words: Vec<String> = before
            .iter()
            .map(usize::to_string)
            .chain([".".to_string()])
            .chain(behind.iter().map(usize::to_string))
            .collect();
        format!("{left} -> {}", words.join(" "))
    }

    /// The lowest nonterminal that is not reached or derives no string of terminals, with what is wrong.
    pub fn useless(&self) -> Option<(usize, String)> {
        let (mut reached, mut productive) = (vec![false; self.t + self.n], vec![false; self.t + self.n]);
        reached[self.t] = true;
        productive[..self.t].fill(true);
        // each round but the last adds a symbol
        for _ in 0..2 * (self.t + self.n) {
            for (left, right) in &self.productions {
                if reached[*left] {
                    right.iter().for_each(|&symbol| reached[symbol] = true);
                }
                if right.iter().all(|&symbol| productive[symbol]) {
                    productive[*left] = true;
                }
            }
        }
        let lowest = (self.t..self.t + self.n).find(|&x| !reached[x] || !productive[x])?;
        let mut faults = Vec::new();
        if !reached[lowest] {
            faults.push("is not reached from the start");
        }
        if !productive[lowest] {
            faults.push("derives no string of terminals");
        }
        let own = self.productions.iter().filter(|(left, _)| *left == lowest).count();
        let own = if own == 0 { "no production".into() } else { count(own, "production", "productions") };
        let words = format!("Nonterminal {lowest} {}; it is the left side of {own}.", faults.join(" and "));
        Some((lowest, words))
    }
}
