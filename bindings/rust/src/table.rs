//! Reads a table back from the text that the program `maketable` prints, and finds the entering symbols in a table.

use std::fmt;

/// Where a text is no table. Lines and columns count from 1, a column for each byte.
#[derive(Clone, Debug, PartialEq, Eq)]
pub struct TableFault {
    pub line: usize,
    pub column: usize,
    /// As: expected `left`, found `lift`.
    pub what: String,
}

impl fmt::Display for TableFault {
    fn fmt(&self, f: &mut fmt::Formatter) -> fmt::Result {
        write!(f, "line {}, column {}: {}", self.line, self.column, self.what)
    }
}

impl std::error::Error for TableFault {}

/// The numbers of a table from its text, for [`parse`](crate::parse).
///
/// Between words and numbers may stand any number of blanks, tabs and line ends (also those with a carriage return),
/// and numbers may have leading zeros. Sizes outside their limits are faults here, and so is a text without `entered`,
/// as it was printed before tables had entering symbols. A left side, length, cell or entering symbol with a wrong value
/// is refused by the parser (23, 24, 44).
pub fn read_table(text: &[u8]) -> Result<Vec<u16>, TableFault> {
    let mut place = Place { text, at: 0, line: 1, column: 1, word: b"" };
    place.next();
    place.word("table")?;
    let mut table = vec![
        place.number("the number of states", 1, 256)?,
        place.number("the number of terminals", 1, 64)?,
        place.number("the number of nonterminals", 1, 60)?,
        place.number("the number of productions", 1, 128)?,
    ];
    let [states, width, productions] = [table[0], table[1] + table[2], table[3]];
    place.word("left")?;
    place.numbers("a left side", productions, &mut table)?;
    place.word("length")?;
    place.numbers("a length", productions, &mut table)?;
    place.word("entered")?;
    place.numbers("an entering symbol", states, &mut table)?;
    for state in 0..states {
        place.word("row")?;
        place.number("state", state, state)?;
        place.word(":")?;
        place.numbers("a cell", width, &mut table)?;
    }
    if place.word.is_empty() {
        Ok(table)
    } else {
        Err(place.wrong("the end"))
    }
}

/// The symbol under which each state of a table is entered: below T a terminal, from T on a nonterminal; 0 for state 0,
/// which nothing enters. Those of the states above state 0 on the stack area after an end, from the bottom up, are the
/// symbols that the input was read as so far. Empty where the table ends before its entering symbols do.
pub fn entered(table: &[u16]) -> &[u16] {
    let [states, _, _, productions, ..] = table else { return &[] };
    let first = 4 + 2 * usize::from(*productions);
    table.get(first..first + usize::from(*states)).unwrap_or(&[])
}

/// A place in the text, and the word there.
struct Place<'a> {
    text: &'a [u8],
    at: usize,
    line: usize,
    column: usize,
    word: &'a [u8],
}

fn blank(byte: u8) -> bool {
    matches!(byte, b' ' | b'\t' | b'\r' | b'\n')
}

impl Place<'_> {
    /// Steps over the word there and the blanks behind it, and finds the next word; at the end it is empty.
    fn next(&mut self) {
        self.at += self.word.len();
        self.column += self.word.len();
        while self.text.get(self.at).is_some_and(|&byte| blank(byte)) {
            self.column += 1;
            if self.text[self.at] == b'\n' {
                self.line += 1;
                self.column = 1;
            }
            self.at += 1;
        }
        let rest = &self.text[self.at..];
        self.word = &rest[..rest.iter().position(|&byte| blank(byte)).unwrap_or(rest.len())];
    }

    /// What was expected at the place. At most 16 bytes of what stands there are shown.
    fn wrong(&self, expected: &str) -> TableFault {
        let shown = self.word.iter().take(16).map(|&byte| if byte.is_ascii_graphic() { byte as char } else { '?' });
        let found = match self.word {
            b"" => "the end".to_string(),
            _ => format!("`{}`", shown.collect::<String>()),
        };
        TableFault { line: self.line, column: self.column, what: format!("expected {expected}, found {found}") }
    }

    /// Takes a fixed word.
    fn word(&mut self, word: &str) -> Result<(), TableFault> {
        if self.word != word.as_bytes() {
            return Err(self.wrong(&format!("`{word}`")));
        }
        self.next();
        Ok(())
    }

    /// Takes a number from low to high.
    fn number(&mut self, what: &str, low: u16, high: u16) -> Result<u16, TableFault> {
        let digits = !self.word.is_empty() && self.word.iter().all(u8::is_ascii_digit);
        let value = self.word.iter().fold(0u32, |x, b| (10 * x + u32::from(b.wrapping_sub(b'0'))).min(1 << 16));
        match u16::try_from(value) {
            Ok(value) if digits && (low..=high).contains(&value) => {
                self.next();
                Ok(value)
            }
            _ if low == high => Err(self.wrong(&format!("{what} {low}"))),
            _ => Err(self.wrong(&format!("{what}, {low} to {high}"))),
        }
    }

    fn numbers(&mut self, what: &str, count: u16, table: &mut Vec<u16>) -> Result<(), TableFault> {
        for _ in 0..count {
            table.push(self.number(what, 0, 65_535)?);
        }
        Ok(())
    }
}
