//! A table on pages: a grid of blanks is filled in, each number placed by its last
//! column. And cells read back from pages, by counting lines and by eye.

use std::collections::BTreeMap;
use std::ops::Range;

/// The columns of a line, and the lines of a page.
pub const COLUMNS: usize = 72;
pub const LINES: usize = 60;
/// The cells of a line.
pub const CELLS: usize = 11;

/// The columns of the state, those of a cell, and the blanks behind the cells.
const STATE: usize = 4;
const CELL: usize = 6;
const BEHIND: usize = 2;

/// The lines of a row of so many cells.
pub fn row_lines(width: usize) -> usize {
    width.div_ceil(CELLS)
}

/// The number at a place of a list; past its end 0.
fn at(table: &[u16], place: usize) -> usize {
    table.get(place).map_or(0, |&number| number.into())
}

/// A cell of a table.
pub fn value(table: &[u16], state: usize, symbol: usize) -> u16 {
    let [states, terminals, nonterminals, productions] = [0, 1, 2, 3].map(|size| at(table, size));
    let row = 4 + 2 * productions + states + state * (terminals + nonterminals);
    at(table, row + symbol) as u16
}

/// Puts a number on a line so that it ends before column `end`.
fn place(line: &mut [u8], end: usize, number: usize) {
    let columns = line[..end].iter_mut().rev();
    columns.zip(number.to_string().bytes().rev()).for_each(|(column, digit)| *column = digit);
}

/// By so many columns the first line of a state's row is moved to the right: by none
/// where the state has up to four digits.
fn moved(state: usize) -> usize {
    state.to_string().len().saturating_sub(STATE)
}

/// The pages of any list of numbers, whose sizes are taken as they are. Cells past the
/// end of the list are 0.
pub fn pages(table: &[u16]) -> Vec<u8> {
    let (states, width) = (at(table, 0), at(table, 1) + at(table, 2));
    let lines = row_lines(width);
    let mut grid = vec![vec![b' '; COLUMNS]; (states * lines).next_multiple_of(LINES)];
    for cell in 0..states * width {
        let (state, symbol) = (cell / width, cell % width);
        let line = &mut grid[state * lines + symbol / CELLS];
        let opened = STATE + if symbol < CELLS { moved(state) } else { 0 };
        let end = opened + CELL * (symbol % CELLS + 1);
        line.resize(line.len().max(end + BEHIND), b' ');
        place(line, end, value(table, state, symbol).into());
        if symbol == 0 {
            place(line, opened, state);
        }
    }
    grid.iter_mut().for_each(|line| line.push(b'\n'));
    grid.concat()
}

/// The number in some columns of a line, at their right edge with only blanks before it.
fn number(line: &[u8], from: usize, columns: usize) -> Option<u16> {
    let text = std::str::from_utf8(line.get(from..from + columns)?).ok()?;
    let digits = text.trim_start_matches(' ');
    digits.bytes().all(|digit| digit.is_ascii_digit()).then(|| digits.parse().ok())?
}

/// The cell number `which` of a line.
fn nth(line: &[u8], which: usize) -> Option<u16> {
    number(line, STATE + CELL * which, CELL)
}

/// A cell, found with the pages and the width of the rows alone: by counting lines.
pub fn cell(pages: &[u8], width: usize, state: usize, symbol: usize) -> Option<u16> {
    let line = state * row_lines(width) + symbol / CELLS;
    match pages.get((COLUMNS + 1) * line..)?.get(..=COLUMNS)? {
        [line @ .., b'\n'] if !line.contains(&b'\n') => nth(line, symbol % CELLS),
        _ => None,
    }
}

/// Pages as one looks at them: their lines, and those of the row of each state that just
/// one line opens with. A row goes on as long as the lines open with blanks.
pub struct Sight<'a> {
    lines: Vec<&'a [u8]>,
    rows: BTreeMap<u16, Option<Range<usize>>>,
}

impl Sight<'_> {
    pub fn new(pages: &[u8]) -> Sight<'_> {
        let lines: Vec<&[u8]> = pages.split(|&byte| byte == b'\n').collect();
        let (mut rows, mut end) = (BTreeMap::new(), lines.len());
        for (which, line) in lines.iter().enumerate().rev() {
            if let Some(state) = number(line, 0, STATE) {
                rows.entry(state).and_modify(|one| *one = None).or_insert(Some(which..end));
            }
            if line.get(..STATE) != Some(b"    ") {
                end = which;
            }
        }
        Sight { lines, rows }
    }

    /// A cell, found by eye: down from the line that opens with the state.
    pub fn cell(&self, state: usize, symbol: usize) -> Option<u16> {
        let row = self.rows.get(&u16::try_from(state).ok()?)?.as_ref()?;
        let line = row.start + symbol / CELLS;
        row.contains(&line).then(|| nth(self.lines[line], symbol % CELLS))?
    }
}
