//! Prints a card as numbered productions and says in words what the maker answers.
//!
//! The answer's numbers are the maker's. What is said beside them (sums, states, items, conflicts) is found here, by
//! plain means, and is not proved; where it does not fit the maker's answer, that is said, too.

mod card;
mod input;
mod states;

use card::{Card, Sizes};
use input::Numbers;
use sidumza::generator::Refusal;
use states::{States, ACCEPT, REDUCE};

/// What is printed, and the status: 0 for a table, 1 for a refusal or `not a card`, 2 where this tool finds something
/// else than the maker.
#[derive(Clone, Debug, PartialEq, Eq)]
pub struct Told {
    pub text: String,
    pub status: u8,
}

/// The maker: the table of a card or its refusal.
pub type Maker<'a> = &'a dyn Fn(&[u16]) -> Result<Vec<u16>, Refusal>;

/// `one` or `more` behind its number.
fn count(n: usize, one: &str, more: &str) -> String {
    format!("{n} {}", if n == 1 { one } else { more })
}

/// A range of numbers.
fn range(low: usize, high: usize) -> String {
    if low == high {
        low.to_string()
    } else {
        format!("{low} to {high}")
    }
}

fn joined<T: ToString>(numbers: impl IntoIterator<Item = T>) -> String {
    numbers.into_iter().map(|n| n.to_string()).collect::<Vec<_>>().join(" ")
}

pub fn explain(text: &[u8], maker: Maker) -> Told {
    let numbers = match Numbers::read(text) {
        Ok(numbers) => numbers,
        Err(fault) => return Told { text: format!("not a card\n{fault}\n"), status: 1 },
    };
    let sizes = Sizes::of(&numbers.values);
    let mut out = String::new();
    if let Some(sizes) = &sizes {
        out += &sizes.shown();
        if sizes.fit() {
            out += &card::productions(&numbers.values, sizes);
        }
    }
    let (answer, words) = match maker(&numbers.values) {
        Ok(table) => (format!("table {}", joined(&table[..4])), made(&numbers.values, &table)),
        Err(refusal) => (format!("refused {}", joined(values(refusal))), refused(&numbers, &sizes, refusal)),
    };
    let status = match (&words, answer.starts_with("table")) {
        (None, _) => 2,
        (_, true) => 0,
        (_, false) => 1,
    };
    let words =
        words.unwrap_or("This tool does not find the same: the maker's answer holds, and the tool is wrong.\n".into());
    Told { text: out + &answer + "\n" + &words, status }
}

/// The numbers that maketable prints behind `refused`.
fn values(refusal: Refusal) -> Vec<u32> {
    let mut all = vec![refusal.number()];
    match refusal {
        Refusal::Useless { nonterminal } => all.push(nonterminal.into()),
        Refusal::Conflict { state, terminal, lower, higher } => {
            all.extend([state, terminal, lower, higher].map(u32::from))
        }
        _ => {}
    }
    all
}

/// A card to which none of 4 to 10 applies.
fn useful(numbers: &[u16]) -> Option<Card> {
    Card::of(numbers).filter(|card| card.useless().is_none())
}

/// The words for a table; nothing where the states found here are others.
fn made(numbers: &[u16], table: &[u16]) -> Option<String> {
    let card = useful(numbers)?;
    let states = States::of(&card)?;
    let [q, t, n, p] = [0, 1, 2, 3].map(|place| usize::from(table[place]));
    let same = [q, t, n, p] == [states.count(), card.t, card.n, card.productions.len()];
    (same && states.conflicts().is_empty()).then(|| {
        format!(
            "The maker makes a table: {}, {}, {}, {}; {} numbers in all.\n",
            count(q, "state", "states"),
            count(t, "terminal", "terminals"),
            count(n, "nonterminal", "nonterminals"),
            count(p, "production", "productions"),
            table.len()
        )
    })
}

/// The words for a refusal; nothing where none is found here.
fn refused(numbers: &Numbers, sizes: &Option<Sizes>, refusal: Refusal) -> Option<String> {
    let all = &numbers.values;
    let words = match refusal {
        Refusal::CardShort => {
            if all.len() >= 4 {
                return None;
            }
            format!("The input has {}; a card has at least 4: T N P L.", count(all.len(), "number", "numbers"))
        }
        Refusal::CardSizes => sizes.as_ref()?.faults()?,
        Refusal::CardLength => sizes.as_ref()?.length_fault(all.len())?,
        Refusal::LeftSide => card::left_fault(numbers, sizes.as_ref()?)?,
        Refusal::Lengths => card::lengths_fault(numbers, sizes.as_ref()?)?,
        Refusal::Symbol => card::symbol_fault(numbers, sizes.as_ref()?)?,
        Refusal::Useless { nonterminal } => match Card::of(all)?.useless()? {
            (lowest, words) if lowest == usize::from(nonterminal) => words,
            _ => return None,
        },
        Refusal::States => match States::of(&useful(all)?) {
            None => "The grammar has more than 256 states.".into(),
            Some(_) => return None,
        },
        Refusal::Transitions => {
            let found = States::of(&useful(all)?)?.nonterminal_transitions();
            if found <= 2048 {
                return None;
            }
            format!("The states have {found} transitions on nonterminals; the most is 2048.")
        }
        Refusal::Conflict { state, terminal, lower, higher } => {
            let card = useful(all)?;
            return conflict(&card, &States::of(&card)?, [state, terminal, lower, higher].map(usize::from));
        }
        Refusal::TableAreaShort | Refusal::WordsShort | Refusal::HalvesShort => return None,
    };
    Some(words + "\n")
}

fn conflict(card: &Card, states: &States, [state, terminal, lower, higher]: [usize; 4]) -> Option<String> {
    let conflicts = states.conflicts();
    let first = conflicts.first()?;
    if (first.state, first.terminal) != (state, terminal) || first.values[..2] != [lower, higher] {
        return None;
    }
    let place = if terminal == 0 { "at the end of the input".into() } else { format!("before terminal {terminal}") };
    let mut out = format!("In state {state}, {place}, {} actions meet:\n", first.values.len());
    for &value in &first.values {
        out += &match value {
            ACCEPT => format!("  {value}: accept, {}\n", card.item((card.productions.len(), 1))),
            value if value >= REDUCE => {
                let production = value - REDUCE;
                format!("  {value}: reduce by production {production} : {}\n", card.production(production))
            }
            value => {
                let shifting = states
                    .items(state)
                    .filter(|&((production, dot), _)| card.right(production).get(dot) == Some(&terminal));
                let items: Vec<String> = shifting.map(|(item, _)| card.item(item)).collect();
                format!("  {value}: shift to state {value}, {}\n", items.join(" and "))
            }
        };
    }
    let path = states.path(state);
    out += &match path[..] {
        [] => format!("State {state} is the first state. Its items:\n"),
        _ => format!("A shortest string of symbols that leads to state {state}: {}. Its items:\n", joined(&path)),
    };
    for (item, lookaheads) in states.items(state) {
        out += &format!("  {}", card.item(item));
        if card.complete(item) {
            out += &format!(" (lookahead {})", joined((0..64).filter(|m| lookaheads >> m & 1 == 1)));
        }
        out += "\n";
    }
    out += &match conflicts.len() - 1 {
        0 => "No other cell has a conflict.\n".to_string(),
        1 => "1 more cell has a conflict.\n".to_string(),
        more => format!("{more} more cells have conflicts.\n"),
    };
    Some(out)
}
