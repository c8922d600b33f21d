//! Lines and the merged card: a line is a sentence of it exactly if it is one of either
//! card, by two membership tests that know nothing of LR. The maker takes it as it takes
//! any card, and by its table each line is read as one of the right card.

use reference::answer::{grammar, TABLE_LENGTH, WORK2_LENGTH, WORK_LENGTH};
use reference::derivation::{sentence, Shortest};
use reference::earley::recognise;
use reference::grammar::Grammar;
use reference::random::Random;
use reference::spans::Spans;

use super::pairs::Pair;
use crate::abi;

/// Lines are at most so long.
const LONGEST: usize = 12;
/// Places for the reading of a line, and its steps.
const STACK: usize = 500;
const STEPS: u64 = 5_000;

struct Line {
    terminals: Vec<u8>,
    /// It is a sentence of the first card, of the second.
    of: [bool; 2],
}

/// A pair of cards that can be merged, and some lines.
pub struct Sample {
    pub pair: Pair,
    lines: Vec<Line>,
}

/// What was seen.
#[derive(Default)]
pub struct Counts {
    pub cards: u64,
    /// Lines that are sentences of neither card, of the first, of the second, of both.
    pub lines: [u64; 4],
    /// Merged cards by the maker's answer.
    pub answers: [u64; 14],
    /// Sentences of the first card and of the second, read by the merged card's table.
    pub read: [u64; 2],
}

/// The maker's areas.
pub struct Maker {
    table: Vec<u16>,
    work: Vec<u64>,
    work2: Vec<u32>,
}

impl Maker {
    pub fn new() -> Maker {
        let (table, work) = (vec![0; TABLE_LENGTH], vec![0; WORK_LENGTH]);
        Maker { table, work, work2: vec![0; WORK2_LENGTH] }
    }

    /// The number of the answer for a card.
    fn answer(&mut self, card: &[u16]) -> u64 {
        abi::generate(card, &mut self.table, &mut self.work, &mut self.work2)[0]
    }

    /// What a line's reading by the table lists, if it is accepted; nothing where it ran out.
    fn read(&self, line: &[u8]) -> Option<Option<Vec<u16>>> {
        let [mut stack, mut list, mut second] = [0; 3].map(|_| vec![0; STACK]);
        let publisher = abi::TESTED.publisher;
        let out = publisher(&self.table, line, &mut stack, &mut list, &mut second, STEPS);
        match out[0] {
            0 => Some(Some(list[..out[3] as usize].to_vec())),
            31 | 46 => Some(None),
            _ => None,
        }
    }
}

/// By both membership tests.
fn member(grammar: &Grammar, line: &[u8]) -> bool {
    let found = recognise(grammar, line).sentence;
    assert_eq!(found, Spans::new(grammar, line).sentence(), "{:?} {line:?}", grammar.card);
    found
}

/// A line with a terminal changed, left out or added.
fn damaged(random: &mut Random, line: &[u8], terminals: usize) -> Vec<u8> {
    let (at, terminal) = (random.below(line.len() + 1), random.between(1, terminals - 1) as u8);
    let mut line = line.to_vec();
    match random.below(3) {
        0 if at < line.len() => drop(line.remove(at)),
        1 if at < line.len() => line[at] = terminal,
        _ => line.insert(at, terminal),
    }
    line
}

/// Sentences of both cards, damaged ones, a half of each, any line, and the empty one.
fn lines(random: &mut Random, grammars: &[Grammar; 2]) -> Vec<Vec<u8>> {
    let terminals = grammars[0].card.terminals;
    let mut lines = vec![vec![]];
    for grammar in grammars {
        let shortest = Shortest::new(grammar);
        lines.extend((0..2).filter_map(|_| sentence(grammar, &shortest, random, LONGEST)));
    }
    if terminals > 1 {
        let [one, two] = [0, 1].map(|_| random.pick(&lines).clone());
        lines.push(damaged(random, &one, terminals));
        lines.push([&one[..one.len() / 2], &two[two.len() / 2..]].concat());
        let length = random.below(5);
        lines.push((0..length).map(|_| random.between(1, terminals - 1) as u8).collect());
    }
    lines
}

impl Sample {
    /// Lines for a pair that can be merged.
    pub fn new(random: &mut Random, pair: Pair) -> Sample {
        let grammars =
            [&pair.first, &pair.second].map(|card| grammar(card).expect("a card without a fault"));
        let line = |terminals: Vec<u8>| {
            let of = [0, 1].map(|card: usize| member(&grammars[card], &terminals));
            Line { terminals, of }
        };
        let lines = lines(random, &grammars).into_iter().map(line).collect();
        Sample { pair, lines }
    }

    pub fn count(&self, counts: &mut Counts) {
        counts.cards += 1;
        for Line { of: [first, second], .. } in &self.lines {
            counts.lines[usize::from(*first) + 2 * usize::from(*second)] += 1;
        }
    }

    /// The sentences among the lines are those of either card. Where 4 to 10 refuse the
    /// merged card, it is for `made` to tell.
    pub fn told(&self, merged: &[u16]) -> Result<(), String> {
        let Ok(merged) = grammar(merged) else { return Ok(()) };
        let fits = |line: &&Line| line.terminals.iter().all(|&m| merged.card.is_terminal(m.into()));
        for Line { terminals, of } in self.lines.iter().filter(fits) {
            if member(&merged, terminals) != (of[0] || of[1]) {
                return Err(format!("line {terminals:?}, a sentence of first and second: {of:?}"));
            }
        }
        Ok(())
    }

    /// The maker answers 0 or 11 to 13, and not 0 where a line is a sentence of both
    /// cards. By its table a line is accepted exactly if it is a sentence of a card, and
    /// the last production listed, alone among the first two, names that card.
    pub fn made(
        &self,
        merged: &[u16],
        maker: &mut Maker,
        counts: &mut Counts,
    ) -> Result<(), String> {
        let answer = maker.answer(merged);
        counts.answers[answer.min(13) as usize] += 1;
        let both = self.lines.iter().find(|line| line.of == [true; 2]);
        match (answer, both) {
            (0, Some(line)) => Err(format!("a table, and {:?} is of both", line.terminals)),
            (0, None) => self.lines.iter().try_for_each(|line| read(line, maker, counts)),
            (11..=13, _) => Ok(()),
            _ => Err(format!("the maker answers {answer}")),
        }
    }
}

/// A line by the table that the maker made last.
fn read(line: &Line, maker: &Maker, counts: &mut Counts) -> Result<(), String> {
    let right = line.of.iter().position(|&of| of);
    let Some(list) = maker.read(&line.terminals) else { return Ok(()) };
    let new = list.as_deref().map(|list| match list {
        [others @ .., last] if others.iter().all(|&production| production > 1) => *last as usize,
        _ => usize::MAX,
    });
    if let (Some(card), true) = (right, new == right) {
        counts.read[card] += 1;
    }
    match new == right {
        true => Ok(()),
        false => Err(format!("line {:?}, of {:?}: productions {list:?}", line.terminals, line.of)),
    }
}
