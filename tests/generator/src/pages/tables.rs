//! Random lists of numbers that are tables by their sizes, most of them whole: rows and
//! pages about their limits, any numbers in the cells, and damaged lists.

use reference::pages::row_lines;
use reference::random::Random;

/// The sizes at the front of a list, 0 past its end.
pub struct Sizes {
    pub states: usize,
    pub terminals: usize,
    pub nonterminals: usize,
    pub productions: usize,
}

impl Sizes {
    pub fn of(table: &[u16]) -> Sizes {
        let at = |place: usize| table.get(place).map_or(0, |&number| number.into());
        Sizes { states: at(0), terminals: at(1), nonterminals: at(2), productions: at(3) }
    }

    pub fn width(&self) -> usize {
        self.terminals + self.nonterminals
    }

    /// The lines of all rows.
    pub fn lines(&self) -> usize {
        self.states * row_lines(self.width())
    }

    /// The place of the first cell.
    pub fn first(&self) -> usize {
        4 + 2 * self.productions + self.states
    }

    /// The place behind the last cell.
    pub fn end(&self) -> usize {
        self.first() + self.states * self.width()
    }
}

/// Widths and numbers of states at the limits of lines and pages.
const WIDTHS: [usize; 9] = [0, 1, 2, 10, 11, 12, 22, 23, 124];
const STATES: [usize; 7] = [0, 1, 2, 5, 59, 60, 61];
/// About the first state that has five digits, with widths that are not too long.
const MANY: [usize; 4] = [9_999, 10_000, 10_001, 10_001];
const NARROW: [usize; 4] = [1, 2, 11, 12];
/// Numbers of each length.
const EDGES: [u16; 11] = [0, 1, 9, 10, 99, 100, 999, 1_000, 9_999, 10_000, 65_535];

/// States and the width of a row.
fn states_and_width(random: &mut Random) -> (usize, usize) {
    match random.below(1_000) {
        0..=3 => (*random.pick(&MANY), *random.pick(&NARROW)),
        4..=5 => (1, random.between(65_534, 65_545)),
        6..=29 => (random.between(0, 9), random.between(125, 4_000)),
        30..=69 => (random.between(2, 300), random.between(0, 130)),
        70..=399 => (random.between(2, 30), *random.pick(&WIDTHS)),
        400..=699 => (*random.pick(&STATES), random.between(0, 40)),
        _ => (*random.pick(&STATES), *random.pick(&WIDTHS)),
    }
}

/// The width as terminals and nonterminals.
fn parts(random: &mut Random, width: usize) -> [usize; 2] {
    let terminals = random.between(width.saturating_sub(65_535), width.min(65_535));
    [terminals, width - terminals]
}

fn productions(random: &mut Random) -> usize {
    match random.below(100) {
        0 => random.between(129, 65_535),
        1..=19 => 0,
        _ => random.between(1, 128),
    }
}

/// The cells: as tables have them, of any digits, or any.
fn cells(random: &mut Random, states: usize, count: usize) -> Vec<u16> {
    let kind = random.below(3);
    let cell = |_| match (kind, random.below(8)) {
        (0, 0) => random.below(states) as u16,
        (0, 1) => 1_024 + random.below(128) as u16,
        (0, 2) => 4_096,
        (0, _) => 0,
        (1, _) => *random.pick(&EDGES),
        _ => random.draw() as u16,
    };
    (0..count).map(cell).collect()
}

/// A list that has just the numbers that its sizes ask for.
fn whole(random: &mut Random) -> Vec<u16> {
    let (states, width) = states_and_width(random);
    let [terminals, nonterminals] = parts(random, width);
    let sizes = Sizes { states, terminals, nonterminals, productions: productions(random) };
    let numbers = [states, terminals, nonterminals, sizes.productions].map(|size| size as u16);
    let before: Vec<u16> = (4..sizes.first()).map(|_| random.draw() as u16).collect();
    [numbers.to_vec(), before, cells(random, states, states * width)].concat()
}

/// Fewer or more numbers than the sizes say, or other productions.
fn damaged(random: &mut Random, numbers: &mut Vec<u16>) {
    let length = numbers.len();
    match random.below(8) {
        0 => numbers.clear(),
        1 => numbers.truncate(random.between(1, 3)),
        2 => numbers.truncate(random.between(4, length)),
        3 => numbers.truncate(length - random.below(4.min(length - 3))),
        4 => numbers.truncate(random.between(4, length.min(40))),
        5 => numbers[3] = random.draw() as u16,
        6 => numbers[3] = random.below(20) as u16,
        _ => numbers.extend((0..random.between(1, 30)).map(|_| 7)),
    }
}

pub fn table(random: &mut Random) -> Vec<u16> {
    let mut numbers = whole(random);
    if random.chance(40) {
        damaged(random, &mut numbers);
    }
    numbers
}

/// The bytes of a buffer for a text of so many.
pub fn room(random: &mut Random, text: usize) -> usize {
    match random.below(16) {
        0 | 1 => text.saturating_sub(1),
        2 => text.saturating_sub(random.between(1, 80)),
        3 | 4 => random.below(text + 1),
        5 => random.below(200),
        6 => 0,
        7 => text + 1,
        8 | 9 => text + random.between(1, 300),
        _ => text,
    }
}
