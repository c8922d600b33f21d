//! The grammar card: its form and refusals 4 to 9.

pub const MAX_TERMINALS: usize = 64;
pub const MAX_NONTERMINALS: usize = 60;
pub const MAX_PRODUCTIONS: usize = 128;
pub const MAX_SYMBOLS: usize = 512;

/// A card that passed refusals 4 to 9, cut into its parts.
#[derive(Clone, Debug, PartialEq, Eq)]
pub struct Card {
    pub terminals: usize,
    pub nonterminals: usize,
    /// Left side and right side of each production.
    pub productions: Vec<(usize, Vec<usize>)>,
}

impl Card {
    pub fn symbols(&self) -> usize {
        self.terminals + self.nonterminals
    }

    pub fn start(&self) -> usize {
        self.terminals
    }

    pub fn is_terminal(&self, symbol: usize) -> bool {
        symbol < self.terminals
    }

    /// The numbers of the card, in order.
    pub fn numbers(&self) -> Vec<u16> {
        let total: usize = self.productions.iter().map(|(_, right)| right.len()).sum();
        let sizes = [self.terminals, self.nonterminals, self.productions.len(), total];
        let mut numbers: Vec<u16> = sizes.iter().map(|&size| size as u16).collect();
        numbers.extend(self.productions.iter().map(|(left, _)| *left as u16));
        numbers.extend(self.productions.iter().map(|(_, right)| right.len() as u16));
        for (_, right) in &self.productions {
            numbers.extend(right.iter().map(|&symbol| symbol as u16));
        }
        numbers
    }
}

/// Refusals 4 to 9 in their order; the number of the first that applies.
pub fn parse(numbers: &[u16]) -> Result<Card, u64> {
    if numbers.len() < 4 {
        return Err(4);
    }
    let size = |i: usize| numbers[i] as usize;
    let (t, n, p, l) = (size(0), size(1), size(2), size(3));
    let fits = (1..=MAX_TERMINALS).contains(&t)
        && (1..=MAX_NONTERMINALS).contains(&n)
        && (1..=MAX_PRODUCTIONS).contains(&p)
        && l <= MAX_SYMBOLS;
    if !fits {
        return Err(5);
    }
    if numbers.len() != 4 + 2 * p + l {
        return Err(6);
    }
    let lefts = &numbers[4..4 + p];
    let lengths = &numbers[4 + p..4 + 2 * p];
    let symbols = &numbers[4 + 2 * p..];
    if lefts.iter().any(|&left| (left as usize) < t || left as usize >= t + n) {
        return Err(7);
    }
    if lengths.iter().map(|&length| length as usize).sum::<usize>() != l {
        return Err(8);
    }
    if bad_symbol(numbers) {
        return Err(9);
    }
    let mut productions = Vec::new();
    let mut rest = symbols;
    for (&left, &length) in lefts.iter().zip(lengths) {
        let (right, behind) = rest.split_at(length as usize);
        productions.push((left as usize, right.iter().map(|&symbol| symbol as usize).collect()));
        rest = behind;
    }
    Ok(Card { terminals: t, nonterminals: n, productions })
}

/// Whether a symbol of the right sides is one that 9 refuses, in a card that
/// passed refusals 4 to 7.
pub fn bad_symbol(numbers: &[u16]) -> bool {
    let size = |i: usize| numbers[i] as usize;
    let (all, symbols) = (size(0) + size(1), &numbers[4 + 2 * size(2)..]);
    symbols.iter().any(|&symbol| symbol == 0 || symbol as usize >= all)
}

#[cfg(test)]
mod tests {
    use super::*;

    #[test]
    fn refusals_come_in_order() {
        assert_eq!(parse(&[]), Err(4));
        assert_eq!(parse(&[3, 1, 2]), Err(4));
        assert_eq!(parse(&[0, 1, 1, 0]), Err(5));
        assert_eq!(parse(&[65, 1, 1, 0, 65, 0]), Err(5));
        assert_eq!(parse(&[1, 1, 1, 0, 1]), Err(6));
        assert_eq!(parse(&[2, 1, 1, 0, 1, 9]), Err(7));
        assert_eq!(parse(&[2, 1, 2, 0, 2, 2, 65535, 1]), Err(8));
        assert_eq!(parse(&[2, 1, 1, 1, 2, 2, 0]), Err(8));
        assert_eq!(parse(&[2, 1, 1, 1, 2, 1, 0]), Err(9));
        assert_eq!(parse(&[2, 1, 1, 1, 2, 1, 3]), Err(9));
    }

    #[test]
    fn numbers_give_the_card_back() {
        let numbers = [3, 1, 2, 3, 3, 3, 2, 1, 3, 1, 2];
        assert_eq!(parse(&numbers).unwrap().numbers(), numbers);
    }
}
