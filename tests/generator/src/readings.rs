//! Inputs read with a table made, by the publisher's call and by the choir's: the answer
//! and the three areas against the reference, and the answer against the membership tests.

use reference::derivation::{is_rightmost, sentence, Shortest};
use reference::earley::{recognise, Recognition};
use reference::grammar::Grammar;
use reference::parser::{parse_restricted, Outcome};
use reference::random::Random;
use reference::spans::{follow, Derivations, Spans};

use crate::abi::Calls;
use crate::check::FENCE;

/// Steps that no input of the tests needs: a small limit, and wide ones whose lower half
/// or whose other 63 bits are few steps or none.
const ENOUGH: [u64; 6] = [50_000, 1 << 32, (1 << 32) + 3, 5 << 40, 1 << 63, u64::MAX];
/// Places that no reading of the tests needs.
const STACK: usize = 2_000;

/// An area with its old contents and a fence behind it, twice: for the parser under test
/// and for the reference.
struct Twin {
    pool: Vec<u16>,
    ours: Vec<u16>,
    theirs: Vec<u16>,
    length: usize,
}

impl Twin {
    fn new(random: &mut Random, longest: usize) -> Twin {
        let places = longest + FENCE;
        let pool = (0..places + 997).map(|_| random.draw() as u16).collect();
        Twin { pool, ours: vec![0; places], theirs: vec![0; places], length: 0 }
    }

    fn longest(&self) -> usize {
        self.ours.len() - FENCE
    }

    /// Other old contents, the same for both, and another length.
    fn lend(&mut self, random: &mut Random, length: usize) {
        let from = random.below(self.pool.len() - self.ours.len());
        let old = &self.pool[from..from + self.ours.len()];
        self.ours.copy_from_slice(old);
        self.theirs.copy_from_slice(old);
        self.length = length;
    }

    fn ours(&mut self) -> &mut [u16] {
        &mut self.ours[..self.length]
    }

    fn theirs(&mut self) -> &mut [u16] {
        &mut self.theirs[..self.length]
    }
}

/// What was seen.
#[derive(Default)]
pub struct Counts {
    pub sentences: u64,
    pub wrong_at_end: u64,
    pub wrong_before: u64,
    pub ran_out: u64,
    pub refused: u64,
    /// Expected sets other than the cells of the top row that are not 0, and sets that
    /// were compared with those of both membership tests.
    pub moved: u64,
    pub by_spans: u64,
    /// 46, and 31 where the second area is longer than a stack that is short.
    pub unknown: u64,
    pub saved: u64,
    /// 45.
    pub second_short: u64,
    pub closed: Closed,
}

/// What was seen of the choir's call.
#[derive(Default)]
pub struct Closed {
    /// 50.
    pub refused: u64,
    /// Accepted although terminals are closed.
    pub accepted: u64,
    /// Wrong at a closed terminal, also where the terminals before it are a sentence, and
    /// wrong before one.
    pub at: u64,
    pub behind_sentence: u64,
    pub before: u64,
    /// Expected sets that closed terminals are missing from.
    pub narrowed: u64,
}

impl Counts {
    /// What came hardly ever, among what the offers, the second area and words can give.
    pub fn few(&self) -> Vec<&'static str> {
        let all = [
            ("moved offers", self.moved),
            ("offers by spans", self.by_spans),
            ("46", self.unknown),
            ("offers in a longer second area", self.saved),
            ("45", self.second_short),
            ("50", self.closed.refused),
            ("accepted while terminals are closed", self.closed.accepted),
            ("wrong at a closed terminal", self.closed.at),
            ("wrong at a closed terminal behind a sentence", self.closed.behind_sentence),
            ("wrong before a closed terminal", self.closed.before),
            ("expected sets without closed terminals", self.closed.narrowed),
        ];
        all.iter().filter(|(_, many)| *many < 100).map(|(what, _)| *what).collect()
    }
}

impl Closed {
    fn count(&mut self, closed: u64, first: Option<usize>, end: &Outcome, known: Recognition) {
        let wrong = end.number == 31 || end.number == 46;
        let at = wrong && first.is_some_and(|first| end.position == first as u64);
        self.accepted += u64::from(end.number == 0 && closed != 0);
        self.at += u64::from(at);
        self.behind_sentence += u64::from(at && known.sentence);
        self.before += u64::from(wrong && first.is_some() && !at);
        self.narrowed += u64::from(end.number == 31 && known.follow & closed != 0);
    }
}

pub struct Readings {
    stack: Twin,
    list: Twin,
    second: Twin,
    limit: u64,
    pub counts: Counts,
    /// Compare with the reference's parser.
    pub plainly: bool,
    /// Never a wide limit: with a wrong table a fresh reading may have no end.
    pub limited: bool,
}

impl Readings {
    pub fn new(random: &mut Random) -> Readings {
        Readings {
            stack: Twin::new(random, STACK),
            list: Twin::new(random, 4_000),
            second: Twin::new(random, STACK + 20),
            limit: 0,
            counts: Counts::default(),
            plainly: true,
            limited: false,
        }
    }

    /// Reads an input with the table made, and compares with the reference and with what
    /// is known of the grammar without LR; with a word by the choir's call.
    pub fn read(
        &mut self,
        random: &mut Random,
        grammar: &Grammar,
        table: &[u16],
        input: &[u8],
        closed: Option<u64>,
        calls: Calls,
    ) -> Result<(), String> {
        self.lend(random);
        let thorough = random.chance(5);
        self.compare(table, input, closed, calls)
            .and_then(|end| self.known(grammar, table, input, closed.unwrap_or(0), &end, thorough))
            .map_err(|what| {
                let [stack, list, second] =
                    [&self.stack, &self.list, &self.second].map(|a| a.length);
                let limit = self.limit;
                format!(
                    "input {input:?}, closed {closed:x?}, areas {stack}, {list} and {second}, \
                     limit {limit}: {what}"
                )
            })
    }

    /// Lends areas to the parser and sets its step limit; one of these is short for one
    /// input in three. The second area is as long as the stack or longer, or too short.
    fn lend(&mut self, random: &mut Random) {
        let (mut stack, mut list) = (self.stack.longest(), self.list.longest());
        self.limit = if self.limited { ENOUGH[0] } else { *random.pick(&ENOUGH) };
        if random.chance(33) {
            match random.below(3) {
                0 => stack = random.below(12),
                1 => list = random.below(16),
                _ => self.limit = random.below(40) as u64,
            }
        }
        let second = match random.below(50) {
            0 => stack.saturating_sub(1),
            1 => random.below(stack + 1),
            2..=25 => stack,
            26..=35 => stack + 1,
            _ => stack + random.below(20),
        };
        self.stack.lend(random, stack);
        self.list.lend(random, list);
        self.second.lend(random, second);
    }

    /// The parser's answer, where it and the areas are the reference's.
    fn compare(
        &mut self,
        table: &[u16],
        input: &[u8],
        closed: Option<u64>,
        calls: Calls,
    ) -> Result<Outcome, String> {
        let Readings { stack, list, second, limit, .. } = self;
        let (limit, (s, l, v)) = (*limit, (stack.ours(), list.ours(), second.ours()));
        let out = match closed {
            None => (calls.publisher)(table, input, s, l, v, limit),
            Some(word) => (calls.choir)(table, input, word, s, l, v, limit),
        };
        if self.plainly {
            let (s, l, v) = (stack.theirs(), list.theirs(), second.theirs());
            let word = closed.unwrap_or(0);
            let expected = parse_restricted(table, input, word, s, l, v, limit).out();
            if out != expected {
                return Err(format!("answer {out:?}, expected {expected:?}"));
            }
            for (name, area) in [("stack", stack), ("list", list), ("second", second)] {
                if area.ours != area.theirs {
                    return Err(format!("the {name} area differs"));
                }
            }
        }
        Ok(Outcome::from_out(out))
    }

    /// The refusal of an input or a word; the maker's table has none.
    fn refusal(&self, grammar: &Grammar, input: &[u8], closed: u64) -> u64 {
        let terminals = grammar.card.terminals;
        if input.iter().any(|&m| m == 0 || m as usize >= terminals) {
            26
        } else if self.stack.length == 0 {
            27
        } else if self.second.length < self.stack.length {
            45
        } else if closed & 1 == 1 || terminals < 64 && closed >> terminals != 0 {
            50
        } else {
            0
        }
    }

    /// Fails where the answer is not what the grammar derives.
    fn known(
        &mut self,
        grammar: &Grammar,
        table: &[u16],
        input: &[u8],
        closed: u64,
        end: &Outcome,
        thorough: bool,
    ) -> Result<(), String> {
        let refusal = self.refusal(grammar, input, closed);
        if refusal != 0 {
            return self.refused(refusal, end);
        }
        // Wrong at the first closed terminal, or before it where those before are.
        let first = input.iter().position(|&m| closed >> m & 1 == 1);
        let mut known = recognise(grammar, &input[..first.unwrap_or(input.len())]);
        self.counts.closed.count(closed, first, end, known);
        known.sentence &= first.is_none();
        match end.number {
            0 => self.accepted(grammar, input, end, known)?,
            31 => {
                self.wrong(input, end, known)?;
                self.offer(grammar, &input[..known.begins], closed, end, known, thorough)?;
                if closed == 0 {
                    self.count_offer(table, end);
                }
            }
            46 => {
                self.wrong(input, end, known)?;
                self.no_offer(end)?;
            }
            _ => self.ran_out(end)?,
        }
        let zero = self.second.ours().iter().all(|&place| place == 0);
        zero.then_some(()).ok_or("the second area is not zero".into())
    }

    fn refused(&mut self, refusal: u64, end: &Outcome) -> Result<(), String> {
        self.counts.refused += 1;
        self.counts.second_short += u64::from(refusal == 45);
        self.counts.closed.refused += u64::from(refusal == 50);
        let told = end.number == refusal;
        told.then_some(()).ok_or(format!("ended with {}, not {refusal}", end.number))
    }

    /// 32, 33 or 34, and no steps or places left.
    fn ran_out(&mut self, end: &Outcome) -> Result<(), String> {
        let none_left = match end.number {
            32 => end.steps == self.limit,
            33 => end.depth == self.stack.length as u64,
            34 => end.listed == self.list.length as u64,
            _ => false,
        };
        self.counts.ran_out += u64::from(none_left);
        none_left.then_some(()).ok_or(format!("ended with {}", end.number))
    }

    fn accepted(
        &mut self,
        grammar: &Grammar,
        input: &[u8],
        end: &Outcome,
        known: Recognition,
    ) -> Result<(), String> {
        if !known.sentence {
            return Err("accepted, but no sentence".into());
        }
        let listed = &self.list.ours[..end.listed as usize];
        if !is_rightmost(grammar, listed.iter().rev().map(|&p| p as usize), input) {
            return Err("the list is no rightmost derivation".into());
        }
        if end.steps != input.len() as u64 + end.listed + 1 {
            return Err(format!("{} steps", end.steps));
        }
        if end.depth != 2 {
            return Err(format!("{} places in use", end.depth));
        }
        if Spans::new(grammar, input).derivations() != Derivations::One {
            return Err("accepted, but not with one derivation".into());
        }
        self.counts.sentences += 1;
        Ok(())
    }

    /// 31 or 46: the input is no sentence, and the position is the first where none
    /// goes on so.
    fn wrong(&mut self, input: &[u8], end: &Outcome, known: Recognition) -> Result<(), String> {
        if known.sentence {
            return Err("a sentence, but not accepted".into());
        }
        if end.position != known.begins as u64 {
            return Err(format!("position {}, not {}", end.position, known.begins));
        }
        if end.steps != end.position + end.listed {
            return Err(format!("{} steps", end.steps));
        }
        if known.begins == input.len() {
            self.counts.wrong_at_end += 1;
        } else {
            self.counts.wrong_before += 1;
        }
        Ok(())
    }

    /// The expected set of 31 is what can follow the terminals before the position, but for
    /// closed ones.
    fn offer(
        &mut self,
        grammar: &Grammar,
        before: &[u8],
        closed: u64,
        end: &Outcome,
        known: Recognition,
        thorough: bool,
    ) -> Result<(), String> {
        let (found, many) = (end.expected, u64::from(end.expected.count_ones()));
        let wanted = known.follow & !closed;
        if found != wanted || end.expected_count != many {
            return Err(format!(
                "expected set {found:x} of {}, not {wanted:x}",
                end.expected_count
            ));
        }
        if thorough && before.len() < 63 && grammar.card.terminals < 12 {
            self.counts.by_spans += 1;
            if found != follow(grammar, before) & !closed {
                return Err(format!("expected set {found:x}, but not by spans"));
            }
        }
        Ok(())
    }

    fn count_offer(&mut self, table: &[u16], end: &Outcome) {
        let top = self.stack.ours[end.depth as usize - 1];
        self.counts.moved += u64::from(end.expected != top_row(table, top));
        let short = self.stack.length < 12;
        self.counts.saved += u64::from(short && self.second.length > self.stack.length);
    }

    /// 46 has no expected set, and comes only where steps or places are few.
    fn no_offer(&mut self, end: &Outcome) -> Result<(), String> {
        if end.expected != 0 || end.expected_count != 0 {
            return Err(format!("46 with expected set {:x}", end.expected));
        }
        if self.limit >= ENOUGH[0] && self.second.length >= STACK {
            return Err("46 with steps and places enough".into());
        }
        self.counts.unknown += 1;
        Ok(())
    }
}

/// The terminals whose cell in a state's row is not 0.
pub fn top_row(table: &[u16], state: u16) -> u64 {
    let [q, t, n, p] = [0, 1, 2, 3].map(|at| table[at] as usize);
    let row = &table[4 + 2 * p + q + state as usize * (t + n)..][..t];
    row.iter().enumerate().filter(|(_, &cell)| cell != 0).fold(0, |set, (m, _)| set | 1 << m)
}

/// A word of closed terminals: none, some, one that the input has, those that it does not
/// have; one in ten is bad.
pub fn closed_word(random: &mut Random, terminals: usize, input: &[u8]) -> u64 {
    let all = u64::MAX >> (64 - terminals) & !1;
    let bit = |m: u8| 1u64.checked_shl(m.into()).unwrap_or(0) & all;
    let met = input.iter().fold(0, |word, &m| word | bit(m));
    match random.below(20) {
        0 => 0,
        1 => all,
        2..=4 => random.draw() & all,
        5..=9 => random.draw() & random.draw() & all,
        10..=14 if !input.is_empty() => bit(*random.pick(input)),
        15 | 16 => all & !met,
        17 => all & !met & random.draw(),
        18 => *random.pick(&[1, 1 << (terminals % 64), u64::MAX, 1 << 63 | 1]),
        19 => random.draw() & all | 1 << random.below(64),
        _ => random.draw() & all & !met,
    }
}

/// A sentence, one with a change, the beginning of one, or any terminals; one in
/// a hundred has a number that is no terminal.
pub fn input(
    random: &mut Random,
    grammar: &Grammar,
    shortest: &Shortest,
    number: usize,
) -> Vec<u8> {
    let terminals = grammar.card.terminals;
    let drawn = sentence(grammar, shortest, random, 40);
    let mut input = match drawn {
        Some(input) if number > 0 => input,
        _ if terminals == 1 => vec![],
        _ => (0..random.below(6)).map(|_| random.between(1, terminals - 1) as u8).collect(),
    };
    match number % 3 {
        0 if terminals > 1 => {
            let at = random.below(input.len() + 1);
            let other = random.between(1, terminals - 1) as u8;
            match random.below(3) {
                0 => input.insert(at, other),
                1 if at < input.len() => input[at] = other,
                _ if at < input.len() => drop(input.remove(at)),
                _ => {}
            }
        }
        1 if random.chance(60) => input.truncate(random.below(input.len() + 1)),
        _ => {}
    }
    if !input.is_empty() && random.chance(1) {
        let at = random.below(input.len());
        input[at] = *random.pick(&[0, terminals as u8, 255]);
    }
    input
}
