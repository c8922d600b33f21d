//! The kinds of lists and buffers that must come.

use reference::pages::{row_lines, CELLS, LINES};

use super::tables::Sizes;

/// A list and a buffer.
pub struct Tried<'a> {
    table: &'a [u16],
    sizes: Sizes,
    text: usize,
    room: usize,
}

impl Tried<'_> {
    fn width(&self, width: usize) -> bool {
        self.sizes.width() == width
    }

    fn states(&self, states: usize) -> bool {
        self.sizes.states == states && self.sizes.width() > 0
    }

    /// There are so many lines more than whole pages have.
    fn more_lines(&self, more: usize) -> bool {
        self.sizes.lines() % LINES == more
    }

    /// A page begins within a row.
    fn broken(&self) -> bool {
        let height = row_lines(self.sizes.width());
        (1..=self.sizes.lines() / LINES)
            .any(|page| page * LINES < self.sizes.lines() && page * LINES % height > 0)
    }

    /// The list has all cells, and one of them is at least so much.
    fn cell(&self, least: u16) -> bool {
        let cells = self.table.get(self.sizes.first()..self.sizes.end());
        cells.is_some_and(|cells| cells.iter().any(|&cell| cell >= least))
    }
}

type Kind = (&'static str, fn(&Tried) -> bool);

pub const KINDS: [Kind; 48] = [
    ("width 0", |t| t.width(0)),
    ("width 1", |t| t.width(1)),
    ("width 2", |t| t.width(2)),
    ("width 10", |t| t.width(10)),
    ("width 11", |t| t.width(11)),
    ("width 12", |t| t.width(12)),
    ("width 22", |t| t.width(22)),
    ("width 23", |t| t.width(23)),
    ("width 124", |t| t.width(124)),
    ("width 125 to 4,000", |t| t.sizes.width() > 124 && t.sizes.width() <= 4_000),
    ("width over 65,535", |t| t.sizes.width() > 65_535 && t.sizes.states > 0),
    ("no states, but a width", |t| t.states(0)),
    ("1 state", |t| t.states(1)),
    ("59 states", |t| t.states(59)),
    ("60 states", |t| t.states(60)),
    ("61 states", |t| t.states(61)),
    ("over 256 states", |t| t.sizes.states > 256 && t.sizes.width() > 0),
    ("9,999 states", |t| t.states(9_999)),
    ("10,000 states", |t| t.states(10_000)),
    ("10,001 states", |t| t.states(10_001)),
    ("10,001 states, a line of 73 columns", |t| t.states(10_001) && t.sizes.width() >= CELLS),
    ("no terminals", |t| t.sizes.terminals == 0 && t.sizes.nonterminals > 0),
    ("no nonterminals", |t| t.sizes.terminals > 0 && t.sizes.nonterminals == 0),
    ("no productions", |t| t.table.len() > 3 && t.sizes.productions == 0),
    ("over 128 productions", |t| t.sizes.productions > 128),
    ("all cells, some at places over 65,535", |t| t.cell(0) && t.sizes.end() > 65_536),
    ("a cell of five digits", |t| t.cell(10_000)),
    ("a cell over 32,767", |t| t.cell(32_768)),
    ("5 states of 12 lines", |t| t.states(5) && t.width(124)),
    ("no lines", |t| t.text == 0),
    ("whole pages", |t| t.text > 0 && t.more_lines(0)),
    ("whole pages and a line", |t| t.sizes.lines() > LINES && t.more_lines(1)),
    ("whole pages but a line", |t| t.more_lines(LINES - 1)),
    ("over 10 pages", |t| t.sizes.lines() > 10 * LINES),
    ("a row broken by the end of a page", |t| t.broken()),
    ("an empty list", |t| t.table.is_empty()),
    ("a list of 1 to 3 numbers", |t| (1..4).contains(&t.table.len())),
    ("a list that ends before the cells", |t| {
        t.table.len() > 3 && t.table.len() < t.sizes.first() && t.text > 0
    }),
    ("a list that ends within the cells", |t| {
        t.table.len() > t.sizes.first() && t.table.len() < t.sizes.end()
    }),
    ("a list of just its numbers", |t| t.table.len() == t.sizes.end()),
    ("a list with numbers behind", |t| t.table.len() > t.sizes.end()),
    ("an empty buffer", |t| t.room == 0 && t.text > 0),
    ("a buffer of up to half the text", |t| t.room > 0 && t.room <= t.text / 2),
    ("a buffer of over half the text", |t| t.room > t.text / 2 && t.room + 1 < t.text),
    ("a buffer that is one byte short", |t| t.room + 1 == t.text),
    ("a buffer as long as the text", |t| t.room == t.text && t.text > 0),
    ("a buffer one byte longer", |t| t.room == t.text + 1),
    ("a buffer that is longer", |t| t.room > t.text + 1),
];

/// What was seen.
pub struct Kinds {
    pub lists: u64,
    /// Cells of lists whose whole text is in the buffer.
    pub cells: u64,
    pub counts: [u64; KINDS.len()],
}

impl Default for Kinds {
    fn default() -> Kinds {
        Kinds { lists: 0, cells: 0, counts: [0; KINDS.len()] }
    }
}

impl Kinds {
    pub fn count(&mut self, table: &[u16], text: usize, room: usize) {
        let tried = Tried { table, sizes: Sizes::of(table), text, room };
        self.lists += 1;
        if text <= room && tried.sizes.states <= super::READABLE {
            self.cells += (tried.sizes.states * tried.sizes.width()) as u64;
        }
        for (count, (_, is)) in self.counts.iter_mut().zip(KINDS) {
            *count += u64::from(is(&tried));
        }
    }
}
