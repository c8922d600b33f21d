//! One card: the generator's answer and all three areas against the reference, and
//! inputs read with the table.

use reference::answer::{reference, short_area, Answer, TABLE_LENGTH, WORK2_LENGTH, WORK_LENGTH};
use reference::card::{bad_symbol, parse};
use reference::derivation::Shortest;
use reference::grammar::Grammar;
use reference::random::Random;

use crate::abi::{Calls, Generator};
use crate::guarded::Guarded;
use crate::readings::{self, closed_word, input, Readings};

/// Places behind the areas lent, which nobody may touch.
pub const FENCE: usize = 24;
/// Areas are at most so much longer than they must be.
const LONGER: usize = 40;
/// LR(1) sets after which the definition is left for the second way.
const BOUND: usize = 1_000;

/// An area with its old contents, a fence behind it, and more old contents to
/// draw from.
struct Area<T> {
    pool: Vec<T>,
    now: Vec<T>,
    from: usize,
    length: usize,
    least: usize,
}

impl<T: Copy + PartialEq + Default> Area<T> {
    fn new(random: &mut Random, least: usize, number: fn(u64) -> T) -> Area<T> {
        let places = least + LONGER + FENCE;
        let pool = (0..places + 997).map(|_| number(random.draw())).collect();
        Area { pool, now: vec![T::default(); places], from: 0, length: 0, least }
    }

    /// Other old contents and another length.
    fn lend(&mut self, random: &mut Random, short: bool) {
        self.length = if short {
            *random.pick(&[0, 1, self.least / 2, self.least - 1])
        } else if random.chance(50) {
            self.least
        } else {
            self.least + random.below(LONGER + 1)
        };
        self.from = random.below(self.pool.len() - self.now.len());
        let old = &self.pool[self.from..self.from + self.now.len()];
        self.now.copy_from_slice(old);
    }

    fn area(&mut self) -> &mut [T] {
        &mut self.now[..self.length]
    }

    /// The area begins with `numbers`, is zero up to the least length and as it
    /// was behind that; without numbers it is as it was.
    fn holds(&self, numbers: Option<&[T]>) -> bool {
        let old = &self.pool[self.from..self.from + self.now.len()];
        match numbers {
            None => self.now == old,
            Some(numbers) => {
                self.now[..numbers.len()] == *numbers
                    && self.now[numbers.len()..self.least].iter().all(|n| *n == T::default())
                    && self.now[self.least..] == old[self.least..]
            }
        }
    }
}

/// Bytes of room for a card.
const CARD: usize = 65_536;

/// The generator's card, directly before a page that nobody may touch, and its three
/// areas.
pub struct Areas {
    card: Guarded,
    /// After the call the card, and the bytes before it, are as they were before.
    card_kept: bool,
    table: Area<u16>,
    work: Area<u64>,
    work2: Area<u32>,
}

impl Areas {
    pub fn new(random: &mut Random) -> Areas {
        Areas {
            card: Guarded::new(CARD),
            card_kept: true,
            table: Area::new(random, TABLE_LENGTH, |n| n as u16),
            work: Area::new(random, WORK_LENGTH, |n| n),
            work2: Area::new(random, WORK2_LENGTH, |n| n as u32),
        }
    }

    /// What the generator answers with other old contents and lengths.
    pub fn generate(
        &mut self,
        random: &mut Random,
        short: [bool; 3],
        numbers: &[u16],
        generator: &Generator,
    ) -> [u64; 5] {
        self.table.lend(random, short[0]);
        self.work.lend(random, short[1]);
        self.work2.lend(random, short[2]);
        assert!(std::mem::size_of_val(numbers) <= CARD, "a card of {} numbers", numbers.len());
        let placed = self.card.place(numbers);
        // SAFETY: so many numbers were placed there.
        let card = unsafe { std::slice::from_raw_parts(placed, numbers.len()) };
        let out = generator(card, self.table.area(), self.work.area(), self.work2.area());
        self.card_kept = self.card.take() == Some(numbers);
        out
    }

    /// Fails where answer or areas differ from what is expected.
    pub fn compare(&self, expected: &Answer, out: [u64; 5]) -> Result<(), String> {
        if !self.card_kept {
            return Err("the card was written".into());
        }
        if out != expected.out() {
            return Err(format!("answer {out:?}, expected {:?}", expected.out()));
        }
        let (table, rest): (Option<&[u16]>, bool) = match expected {
            Answer::Table(numbers) => (Some(numbers), true),
            Answer::Refused(1..=10, _) => (None, false),
            Answer::Refused(..) => (Some(&[]), true),
        };
        if !self.table.holds(table) {
            return Err("the table area differs".into());
        }
        if !self.work.holds(rest.then_some(&[])) {
            return Err("the first work area differs".into());
        }
        if !self.work2.holds(rest.then_some(&[])) {
            return Err("the second work area differs".into());
        }
        Ok(())
    }
}

/// What was seen.
#[derive(Default)]
pub struct Counts {
    pub cards: u64,
    /// Cards by answer, 0 for a table.
    pub answers: [u64; 14],
    /// Cards refused for their right sides: 8 with good symbols, 9, and 8 with a bad
    /// symbol.
    pub right_sides: [u64; 3],
    /// Answers found by the definition, and by both ways of the reference.
    pub by_definition: u64,
    pub both_ways: u64,
    /// Tables with T 64, and with over 100 states.
    pub wide: u64,
    pub large: u64,
}

impl Counts {
    /// Of one of the three kinds of wrong right sides there was one card in 400, or
    /// fewer.
    pub fn few_right_sides(&self) -> bool {
        self.right_sides.iter().any(|&cards| cards <= self.cards / 400)
    }
}

pub struct Checker {
    areas: Areas,
    readings: Readings,
    pub counts: Counts,
    /// Compare the two ways of the reference for one card in so many.
    pub both: u64,
    /// Compare answer and areas with the reference.
    pub compare: bool,
    /// Inputs read for each table.
    pub inputs: usize,
}

impl Checker {
    pub fn new(random: &mut Random) -> Checker {
        Checker {
            areas: Areas::new(random),
            readings: Readings::new(random),
            counts: Counts::default(),
            both: 1,
            compare: true,
            inputs: 6,
        }
    }

    /// For tables that may be wrong: they are not compared, and no reading with them may
    /// go on for long.
    pub fn with_wrong_tables(mut self) -> Checker {
        self.compare = false;
        self.readings.limited = true;
        self
    }

    /// For a parser that is compared with what the grammar derives, and not with the
    /// reference.
    pub fn without_plain_parser(mut self) -> Checker {
        self.readings.plainly = false;
        self
    }

    pub fn seen(&self) -> &readings::Counts {
        &self.readings.counts
    }

    /// What the generator must answer with the areas lent.
    fn expected(&mut self, numbers: &[u16]) -> Answer {
        self.counts.cards += 1;
        let both = self.counts.cards.is_multiple_of(self.both);
        let Areas { table, work, work2, .. } = &self.areas;
        let expected = match short_area(table.length, work.length, work2.length) {
            Some(refused) => refused,
            None => {
                let found = reference(numbers, BOUND, both);
                self.counts.by_definition += u64::from(found.by_definition);
                self.counts.both_ways += u64::from(found.by_definition && found.by_second_way);
                found.answer
            }
        };
        self.counts.answers[expected.out()[0] as usize] += 1;
        match expected {
            Answer::Refused(8, _) if bad_symbol(numbers) => self.counts.right_sides[2] += 1,
            Answer::Refused(8, _) => self.counts.right_sides[0] += 1,
            Answer::Refused(9, _) => self.counts.right_sides[1] += 1,
            _ => {}
        }
        expected
    }

    /// Fails with a description of the first difference.
    pub fn card(
        &mut self,
        random: &mut Random,
        numbers: &[u16],
        generator: &Generator,
        calls: Calls,
    ) -> Result<(), String> {
        let mut short = [false; 3];
        if random.chance(3) {
            short[random.below(3)] = true;
            short[random.below(3)] = true;
        }
        let out = self.areas.generate(random, short, numbers, generator);
        let expected = self.expected(numbers);
        if self.compare {
            self.areas.compare(&expected, out)?;
        }
        if let (Answer::Table(table), 0) = (&expected, out[0]) {
            self.counts.wide += u64::from(table[1] == 64);
            self.counts.large += u64::from(table[0] > 100);
            let grammar = Grammar::new(parse(numbers).expect("a card with a table"));
            let shortest = Shortest::new(&grammar);
            let table = &self.areas.table.now[..self.areas.table.length];
            for number in 0..self.inputs {
                let input = input(random, &grammar, &shortest, number);
                self.readings.read(random, &grammar, table, &input, None, calls)?;
                if random.chance(50) {
                    let word = closed_word(random, grammar.card.terminals, &input);
                    self.readings.read(random, &grammar, table, &input, Some(word), calls)?;
                }
            }
        }
        Ok(())
    }
}
