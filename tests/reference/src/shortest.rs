//! The length of the shortest string of terminals that each nonterminal derives, by
//! Knuth's generalization of Dijkstra's algorithm (1977): again and again the least
//! sum of a right side whose symbols are all settled settles its left side.

use crate::card::{Card, MAX_NONTERMINALS};

/// What is answered for that length or more, and for a nonterminal that derives no
/// string of terminals.
pub const CAP: u16 = 65_535;

/// Exact, but for the highest number: that much or more.
pub type Length = u128;

/// The length of each symbol; none where no string of terminals is derived.
pub fn lengths(card: &Card) -> Vec<Option<Length>> {
    settled(card).0
}

/// The lengths, and for each nonterminal the production that settled it: the symbols of
/// its right side were settled before.
pub fn settled(card: &Card) -> (Vec<Option<Length>>, Vec<Option<usize>>) {
    let mut lengths: Vec<Option<Length>> =
        (0..card.symbols()).map(|s| card.is_terminal(s).then_some(1)).collect();
    let mut chosen = vec![None; card.symbols()];
    while let Some((length, left, production)) = least(card, &lengths) {
        (lengths[left], chosen[left]) = (Some(length), Some(production));
    }
    (lengths, chosen)
}

/// The least sum of a right side whose symbols are settled and whose left side is
/// not, with that left side and its production.
fn least(card: &Card, settled: &[Option<Length>]) -> Option<(Length, usize, usize)> {
    let open = card.productions.iter().zip(0..).filter(|((left, _), _)| settled[*left].is_none());
    open.filter_map(|((left, right), production)| Some((sum(right, settled)?, *left, production)))
        .min()
}

/// The sum of a right side, if all its symbols are settled.
fn sum(right: &[usize], settled: &[Option<Length>]) -> Option<Length> {
    right.iter().try_fold(0, |sum: Length, &symbol| Some(sum.saturating_add(settled[symbol]?)))
}

/// What is answered: the length of each nonterminal, none above the cap, and the cap
/// for what is no nonterminal.
pub fn capped(card: &Card, lengths: &[Option<Length>]) -> [u16; MAX_NONTERMINALS] {
    let mut numbers = [CAP; MAX_NONTERMINALS];
    for (number, length) in numbers.iter_mut().zip(&lengths[card.terminals..]) {
        *number = length.map_or(CAP, |length| length.min(CAP.into()) as u16);
    }
    numbers
}
