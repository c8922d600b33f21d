//! Which parts of an input does each nonterminal derive? Gives the number of
//! derivations, and a second membership test. Inputs of at most 63 terminals.

use crate::grammar::Grammar;

#[derive(Clone, Copy, Debug, PartialEq, Eq)]
pub enum Derivations {
    None,
    One,
    Many,
}

/// A nonterminal with the part of the input it derives.
type Part = (usize, usize, usize);

/// What can follow an input that begins a sentence, by one test for each terminal: bit m
/// where the input and m begin a sentence, bit 0 where it is one. As inputs, of at most 62
/// terminals.
pub fn follow(grammar: &Grammar, input: &[u8]) -> u64 {
    let mut line = [input, &[0]].concat();
    let mut found = u64::from(Spans::new(grammar, input).sentence());
    for terminal in 1..grammar.card.terminals {
        line[input.len()] = terminal as u8;
        found |= u64::from(Spans::new(grammar, &line).begins()) << terminal;
    }
    found
}

pub struct Spans<'a> {
    grammar: &'a Grammar,
    input: &'a [u8],
    /// The positions where a part derived from the symbol may end, by symbol and
    /// beginning; bit j for position j.
    ends: Vec<Vec<u64>>,
}

impl<'a> Spans<'a> {
    pub fn new(grammar: &'a Grammar, input: &'a [u8]) -> Spans<'a> {
        assert!(input.len() < 64);
        let mut ends = vec![vec![0u64; input.len() + 1]; grammar.card.symbols()];
        for (position, &terminal) in input.iter().enumerate() {
            ends[terminal as usize][position] = 1 << (position + 1);
        }
        let mut spans = Spans { grammar, input, ends };
        loop {
            let mut changed = false;
            for (left, right) in &grammar.card.productions {
                for from in 0..=input.len() {
                    let joined = spans.ends[*left][from] | spans.behind(right, from);
                    changed |= joined != spans.ends[*left][from];
                    spans.ends[*left][from] = joined;
                }
            }
            if !changed {
                return spans;
            }
        }
    }

    /// Where a part derived from the string and beginning at `from` may end.
    fn behind(&self, string: &[usize], from: usize) -> u64 {
        string.iter().fold(1 << from, |reached: u64, &symbol| {
            let positions = (0..=self.input.len()).filter(|&p| reached >> p & 1 == 1);
            positions.fold(0, |joined, p| joined | self.ends[symbol][p])
        })
    }

    pub fn sentence(&self) -> bool {
        self.ends[self.grammar.card.start()][0] >> self.input.len() & 1 == 1
    }

    /// Some terminals behind the input complete a sentence (in a grammar
    /// without useless nonterminals).
    pub fn begins(&self) -> bool {
        // Nonterminals, with a beginning, that derive the rest of the input and
        // perhaps more.
        let end = self.input.len();
        let card = &self.grammar.card;
        let mut covers = vec![vec![false; end + 1]; card.symbols()];
        loop {
            let mut changed = false;
            for (left, right) in &card.productions {
                for from in (0..=end).filter(|&from| !covers[*left][from]).collect::<Vec<_>>() {
                    let found = (0..=right.len()).any(|dot| {
                        let reached = self.behind(&right[..dot], from);
                        let rest = right.get(dot);
                        (0..=end)
                            .filter(|&p| reached >> p & 1 == 1)
                            .any(|p| p == end || rest.is_some_and(|&symbol| covers[symbol][p]))
                    });
                    covers[*left][from] = found;
                    changed |= found;
                }
            }
            if !changed {
                return covers[card.start()][0];
            }
        }
    }

    /// The number of derivation trees of the input, that is of rightmost
    /// derivations: one exactly if every part met has one way to be derived.
    pub fn derivations(&self) -> Derivations {
        if !self.sentence() {
            return Derivations::None;
        }
        let mut met: Vec<Part> = vec![(self.grammar.card.start(), 0, self.input.len())];
        let mut at = 0;
        while at < met.len() {
            let (nonterminal, from, to) = met[at];
            let mut ways = Vec::new();
            for &production in &self.grammar.of[nonterminal] {
                let right = &self.grammar.rights[production];
                self.cut(right, from, to, &mut Vec::new(), &mut ways);
            }
            if ways.len() != 1 {
                return Derivations::Many;
            }
            for part in ways.remove(0) {
                if !met.contains(&part) {
                    met.push(part);
                }
            }
            at += 1;
        }
        Derivations::One
    }

    /// All ways (two are enough) to cut a part of the input into parts that the
    /// symbols of the string derive.
    fn cut(
        &self,
        string: &[usize],
        from: usize,
        to: usize,
        parts: &mut Vec<Part>,
        ways: &mut Vec<Vec<Part>>,
    ) {
        if ways.len() > 1 || self.behind(string, from) >> to & 1 == 0 {
            return;
        }
        let Some((&symbol, rest)) = string.split_first() else {
            let nonterminals = parts.iter().filter(|part| !self.grammar.card.is_terminal(part.0));
            ways.push(nonterminals.copied().collect());
            return;
        };
        for end in from..=to {
            if self.ends[symbol][from] >> end & 1 == 1 {
                parts.push((symbol, from, end));
                self.cut(rest, end, to, parts, ways);
                parts.pop();
            }
        }
    }
}
