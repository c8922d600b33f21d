//! Pages written line by line, with a fault on demand. It is not part of the reference:
//! it shows that faults are found, and it stands in where no archive is linked.

use super::tables::Sizes;

/// What is wrong; `FAULTS` has the words.
#[derive(Clone, Copy, PartialEq, Eq)]
pub enum Fault {
    None,
    TerminalsOnly,
    NonterminalsOnly,
    Width(usize),
    LastState,
    States(usize),
    NoEntered,
    OneArray,
    NoSizes,
    OneEarly,
    OneLate,
    Places16,
    RowsOverlap,
    TerminalSteps,
    ByColumns,
    Swapped,
    Backwards,
    LastAgain,
    EndLeftOut,
    PerLine(usize),
    CellColumns(usize),
    LeftCells,
    ZeroCells,
    BlankBehind,
    NoZero,
    Bits(u32),
    Signed,
    StateColumns(usize),
    LeftState,
    ZeroState,
    NoState,
    EveryLine,
    NotIndented,
    FromOne,
    StateBelow(usize),
    TwoBefore,
    BlanksFirst,
    ZerosBehind,
    FirstLine,
    FullLines,
    LineMore,
    StateAlone,
    Header,
    Unbroken,
    Reopened,
    Between(&'static str),
    Length(usize),
    Count8,
    Unfilled,
    PageMore,
    PageForNothing,
    BlankFirst,
    BlankEmpty,
    Columns(usize),
    PaddedWith(char),
    FifthDigitMore,
    Cut72,
    End(&'static str),
    NoLastFeed,
    LinesOnly,
    WholeOnly,
    LastByteLeft,
    FromSecond,
    Behind(u8),
    OneBehind,
    Before,
    TableWritten,
    WholeTold,
    RoomTold,
    OneLessTold,
    OneMoreTold,
}

/// What shows a fault.
#[derive(Clone, Copy, PartialEq, Eq)]
pub enum Seen {
    /// A cell is not read back.
    Cells,
    /// Only what else is compared: each cell is read back.
    Text,
}

use Seen::{Cells, Text};

pub const FAULTS: [(&str, Fault, Seen); 92] = [
    ("terminals only", Fault::TerminalsOnly, Cells),
    ("nonterminals only", Fault::NonterminalsOnly, Cells),
    ("a width of 8 bits", Fault::Width(1 << 8), Cells),
    ("a width of 16 bits", Fault::Width(1 << 16), Cells),
    ("the last state left out", Fault::LastState, Cells),
    ("at most 256 states", Fault::States(256), Cells),
    ("at most 9,999 states", Fault::States(9_999), Cells),
    ("at most 10,000 states", Fault::States(10_000), Text),
    ("entering symbols taken for cells", Fault::NoEntered, Cells),
    ("lengths taken for cells", Fault::OneArray, Cells),
    ("cells four places early", Fault::NoSizes, Cells),
    ("cells one place early", Fault::OneEarly, Cells),
    ("cells one place late", Fault::OneLate, Cells),
    ("places of 16 bits", Fault::Places16, Cells),
    ("rows that overlap", Fault::RowsOverlap, Cells),
    ("rows as long as there are terminals", Fault::TerminalSteps, Cells),
    ("rows and columns exchanged", Fault::ByColumns, Cells),
    ("two rows exchanged", Fault::Swapped, Cells),
    ("each row from its end", Fault::Backwards, Cells),
    ("the last number again past the end", Fault::LastAgain, Cells),
    ("no cells past the end", Fault::EndLeftOut, Cells),
    ("ten cells a line", Fault::PerLine(10), Cells),
    ("twelve cells a line", Fault::PerLine(12), Cells),
    ("cells of five columns", Fault::CellColumns(5), Cells),
    ("cells of seven columns", Fault::CellColumns(7), Cells),
    ("cells at the left of their columns", Fault::LeftCells, Cells),
    ("cells with zeros before them", Fault::ZeroCells, Text),
    ("a blank behind each cell", Fault::BlankBehind, Cells),
    ("no cell where it is 0", Fault::NoZero, Cells),
    ("cells of 8 bits", Fault::Bits(8), Cells),
    ("cells of 12 bits", Fault::Bits(12), Cells),
    ("cells of 15 bits", Fault::Bits(15), Cells),
    ("cells with a sign", Fault::Signed, Cells),
    ("states in three columns", Fault::StateColumns(3), Cells),
    ("states in five columns", Fault::StateColumns(5), Cells),
    ("states at the left of their columns", Fault::LeftState, Cells),
    ("states with zeros before them", Fault::ZeroState, Text),
    ("no states", Fault::NoState, Cells),
    ("the state on every line of its row", Fault::EveryLine, Cells),
    ("further lines not indented", Fault::NotIndented, Cells),
    ("states from 1", Fault::FromOne, Cells),
    ("the last two digits of states", Fault::StateBelow(100), Cells),
    ("the last three digits of states", Fault::StateBelow(1_000), Cells),
    ("the last four digits of states", Fault::StateBelow(10_000), Text),
    ("states of 8 bits", Fault::StateBelow(256), Cells),
    ("two blanks before the cells", Fault::TwoBefore, Cells),
    ("blanks before the state", Fault::BlanksFirst, Cells),
    ("zeros behind the last cell of a row", Fault::ZerosBehind, Text),
    ("the first line of each row only", Fault::FirstLine, Cells),
    ("full lines of rows only", Fault::FullLines, Cells),
    ("a blank line behind rows of full lines", Fault::LineMore, Cells),
    ("the state on a line of its own", Fault::StateAlone, Cells),
    ("a line with sizes first", Fault::Header, Cells),
    ("a row not broken by the end of a page", Fault::Unbroken, Cells),
    ("the state again at the head of a page", Fault::Reopened, Cells),
    ("a form feed between pages", Fault::Between("\u{c}"), Cells),
    ("a line feed between pages", Fault::Between("\n"), Cells),
    ("pages of 59 lines", Fault::Length(59), Text),
    ("pages of 61 lines", Fault::Length(61), Text),
    ("pages of 66 lines", Fault::Length(66), Text),
    ("pages of 120 lines", Fault::Length(120), Text),
    ("blank lines by a count of 8 bits", Fault::Count8, Text),
    ("the last page not filled", Fault::Unfilled, Text),
    ("a page behind a full one", Fault::PageMore, Text),
    ("a page where there is no line", Fault::PageForNothing, Text),
    ("the blank lines first", Fault::BlankFirst, Cells),
    ("blank lines not padded", Fault::BlankEmpty, Text),
    ("lines not padded", Fault::Columns(0), Cells),
    ("71 columns", Fault::Columns(71), Cells),
    ("73 columns", Fault::Columns(73), Cells),
    ("80 columns", Fault::Columns(80), Cells),
    ("lines padded with tabs", Fault::PaddedWith('\t'), Text),
    ("lines padded with zero bytes", Fault::PaddedWith('\0'), Text),
    ("a column more for five digits", Fault::FifthDigitMore, Text),
    ("72 columns also for five digits", Fault::Cut72, Text),
    ("a carriage return before the line feed", Fault::End("\r\n"), Cells),
    ("no line feeds", Fault::End(" "), Cells),
    ("two line feeds", Fault::End("\n\n"), Cells),
    ("no line feed at the end", Fault::NoLastFeed, Cells),
    ("whole lines only in a short buffer", Fault::LinesOnly, Text),
    ("nothing in a short buffer", Fault::WholeOnly, Text),
    ("the last byte of the buffer left", Fault::LastByteLeft, Cells),
    ("the text from the second byte on", Fault::FromSecond, Cells),
    ("zeros behind the text", Fault::Behind(0), Text),
    ("blanks behind the text", Fault::Behind(b' '), Text),
    ("a zero byte behind the text", Fault::OneBehind, Text),
    ("a byte before the buffer written", Fault::Before, Text),
    ("the table written", Fault::TableWritten, Text),
    ("the whole length told", Fault::WholeTold, Text),
    ("the buffer's length told", Fault::RoomTold, Text),
    ("one byte less told", Fault::OneLessTold, Cells),
    ("one byte more told", Fault::OneMoreTold, Text),
];

/// A table as a fault has it written.
struct Writer<'a> {
    table: &'a [u16],
    sizes: Sizes,
    fault: Fault,
}

impl Writer<'_> {
    fn states(&self) -> usize {
        match self.fault {
            Fault::LastState => self.sizes.states.saturating_sub(1),
            Fault::States(most) => self.sizes.states.min(most),
            _ => self.sizes.states,
        }
    }

    fn width(&self) -> usize {
        match self.fault {
            Fault::TerminalsOnly => self.sizes.terminals,
            Fault::NonterminalsOnly => self.sizes.nonterminals,
            Fault::Width(below) => self.sizes.width() % below,
            _ => self.sizes.width(),
        }
    }

    /// The lines of a row.
    fn parts(&self) -> usize {
        match self.fault {
            Fault::FirstLine => self.width().min(1),
            Fault::FullLines => self.width() / 11,
            Fault::LineMore => self.width() / 11 + 1,
            _ => self.width().div_ceil(self.per_line()),
        }
    }

    fn per_line(&self) -> usize {
        if let Fault::PerLine(cells) = self.fault {
            cells
        } else {
            11
        }
    }

    /// The place of a cell.
    fn place(&self, state: usize, symbol: usize) -> usize {
        let (sizes, width) = (&self.sizes, self.width());
        let first = match self.fault {
            Fault::NoEntered => sizes.first() - sizes.states,
            Fault::OneArray => sizes.first() - sizes.productions,
            Fault::NoSizes => sizes.first() - 4,
            Fault::OneEarly => sizes.first() - 1,
            Fault::OneLate => sizes.first() + 1,
            _ => sizes.first(),
        };
        let row = match self.fault {
            Fault::RowsOverlap => state * (width - 1),
            Fault::TerminalSteps => state * sizes.terminals,
            Fault::Swapped if (state ^ 1) < sizes.states => (state ^ 1) * width,
            _ => state * width,
        };
        match self.fault {
            Fault::ByColumns => first + symbol * sizes.states + state,
            Fault::Backwards => first + row + width - 1 - symbol,
            Fault::Places16 => (first + row + symbol) % (1 << 16),
            _ => first + row + symbol,
        }
    }

    /// A cell in its columns.
    fn cell(&self, state: usize, symbol: usize) -> String {
        let value = match (self.table.get(self.place(state, symbol)), self.fault) {
            (Some(&value), _) => value,
            (None, Fault::LastAgain) => self.table[self.table.len() - 1],
            (None, Fault::EndLeftOut) => return " ".repeat(6),
            (None, _) => 0,
        };
        match self.fault {
            Fault::CellColumns(columns) => format!("{value:>columns$}"),
            Fault::LeftCells => format!("{value:<6}"),
            Fault::ZeroCells => format!("{value:06}"),
            Fault::BlankBehind => format!("{value:>5} "),
            Fault::NoZero if value == 0 => " ".repeat(6),
            Fault::Bits(bits) => format!("{:>6}", value % (1 << bits)),
            Fault::Signed => format!("{:>6}", value as i16),
            _ => format!("{value:>6}"),
        }
    }

    /// What stands before the cells.
    fn opening(&self, state: usize, further: bool) -> String {
        let state = match self.fault {
            Fault::FromOne => state + 1,
            Fault::StateBelow(bound) => state % bound,
            _ => state,
        };
        match (self.fault, further) {
            (Fault::EveryLine, true) => format!("{state:>4}"),
            (Fault::NotIndented, true) => String::new(),
            (Fault::StateColumns(columns), true) => " ".repeat(columns),
            (Fault::NoState, _) | (_, true) => " ".repeat(4),
            (Fault::StateColumns(columns), false) => format!("{state:>columns$}"),
            (Fault::LeftState, false) => format!("{state:<4}"),
            (Fault::ZeroState, false) => format!("{state:04}"),
            _ => format!("{state:>4}"),
        }
    }

    /// A line of a row, up to the two blanks behind the cells.
    fn line(&self, state: usize, part: usize) -> String {
        let (from, per_line) = (self.per_line() * part, self.per_line());
        let mut text = self.opening(state, part > 0 || self.fault == Fault::StateAlone);
        for symbol in from..self.width().min(from + per_line) {
            text += &self.cell(state, symbol);
        }
        match self.fault {
            Fault::TwoBefore => text.insert_str(4, "  "),
            Fault::ZerosBehind => {
                text += &"     0".repeat(70usize.saturating_sub(text.len()) / 6);
            }
            Fault::BlanksFirst => text = format!("{text:>70}"),
            Fault::FifthDigitMore if state > 9_999 && part == 0 => text = format!("{text:<71}"),
            _ => {}
        }
        text + "  "
    }

    /// The lines of all rows.
    fn rows(&self) -> Vec<String> {
        let mut lines = Vec::new();
        if self.fault == Fault::Header {
            lines.push(format!("table {} {}", self.states(), self.width()));
        }
        for state in 0..self.states() {
            if self.fault == Fault::Unbroken && lines.len() % 60 + self.parts() > 60 {
                lines.resize(lines.len().next_multiple_of(60), String::new());
            }
            if self.fault == Fault::StateAlone {
                lines.push(self.opening(state, false));
            }
            for part in 0..self.parts() {
                let mut line = self.line(state, part);
                if self.fault == Fault::Reopened && lines.len() % 60 == 0 {
                    line.replace_range(..4, &self.opening(state, false)[..4]);
                }
                lines.push(line);
            }
        }
        lines
    }

    /// The lines of all pages, without what they are padded with.
    fn lines(&self) -> Vec<String> {
        let mut lines = self.rows();
        let length = if let Fault::Length(length) = self.fault { length } else { 60 };
        let count = if self.fault == Fault::Count8 { lines.len() % 256 } else { lines.len() };
        let blank = match (self.fault, count.next_multiple_of(length) - count) {
            (Fault::Unfilled, _) => 0,
            (Fault::PageMore, 0) if count > 0 => 60,
            (Fault::PageForNothing, 0) if count == 0 => 60,
            (_, blank) => blank,
        };
        let at = if self.fault == Fault::BlankFirst { 0 } else { lines.len() };
        lines.splice(at..at, vec![String::new(); blank]);
        lines
    }

    /// A line as it stands on a page.
    fn padded(&self, line: &str) -> String {
        match self.fault {
            Fault::Columns(columns) => format!("{line:<columns$}"),
            Fault::PaddedWith(with) => {
                let missing = 72usize.saturating_sub(line.len());
                line.to_string() + &with.to_string().repeat(missing)
            }
            Fault::BlankEmpty if line.is_empty() => String::new(),
            Fault::Cut72 => format!("{line:<72}")[..72].to_string(),
            _ => format!("{line:<72}"),
        }
    }

    fn text(&self) -> Vec<u8> {
        let end = if let Fault::End(end) = self.fault { end } else { "\n" };
        let mut text = String::new();
        for (which, line) in self.lines().iter().enumerate() {
            if let (Fault::Between(mark), true) = (self.fault, which > 0 && which % 60 == 0) {
                text += mark;
            }
            text += &self.padded(line);
            text += end;
        }
        if self.fault == Fault::NoLastFeed {
            text.pop();
        }
        text.into_bytes()
    }
}

/// Puts a text into a buffer; says how many bytes are used.
fn put(text: &[u8], out: &mut [u8], fault: Fault) -> usize {
    let room = match fault {
        Fault::LinesOnly if out.len() < text.len() => out.len() / 73 * 73,
        Fault::WholeOnly if out.len() < text.len() => 0,
        Fault::LastByteLeft => out.len().saturating_sub(1),
        _ => out.len(),
    };
    let used = text.len().min(room);
    let from = usize::from(fault == Fault::FromSecond).min(used);
    out[from..used].copy_from_slice(&text[..used - from]);
    let whole = out.len();
    match fault {
        Fault::Behind(byte) => out[used..].fill(byte),
        Fault::OneBehind => out[used..whole.min(used + 1)].fill(0),
        // SAFETY: none but that the bytes in front can be written.
        Fault::Before => unsafe { out.as_mut_ptr().sub(1).write_volatile(0) },
        _ => {}
    }
    match fault {
        Fault::WholeTold => text.len(),
        Fault::RoomTold => whole,
        Fault::OneLessTold => used.saturating_sub(1),
        Fault::OneMoreTold => used + 1,
        _ => used,
    }
}

/// The C function, with a fault or with none.
pub fn pages(table: &[u16], out: &mut [u8], fault: Fault) -> usize {
    let text = Writer { table, sizes: Sizes::of(table), fault }.text();
    if fault == Fault::TableWritten && !table.is_empty() {
        // SAFETY: none but that the table stands in memory that can be written.
        unsafe { table.as_ptr().cast_mut().write_volatile(!table[0]) };
    }
    put(&text, out, fault)
}

pub fn with(fault: Fault) -> impl Fn(&[u16], &mut [u8]) -> usize {
    move |table, out| pages(table, out, fault)
}
