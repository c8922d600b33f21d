//! The numbers of an input, with their places.

use std::fmt;

/// The most numbers of a card: 4, two for each of 128 productions, 512 symbols.
const MOST: usize = 772;

pub struct Numbers {
    pub values: Vec<u16>,
    /// Line and column of each, counted from 1.
    pub places: Vec<(usize, usize)>,
}

/// Why an input is not a card.
pub enum Fault {
    /// A word that is no number up to 65,535.
    Word { line: usize, column: usize, word: Vec<u8> },
    /// More numbers than a card can have.
    Many { line: usize, column: usize },
}

impl Numbers {
    pub fn read(text: &[u8]) -> Result<Numbers, Fault> {
        let mut found = Numbers { values: Vec::new(), places: Vec::new() };
        for (line, words) in text.split(|&byte| byte == b'\n').enumerate() {
            let mut column = 1;
            for word in words.split(|&byte| byte == b' ') {
                if !word.is_empty() {
                    found.take(line + 1, column, word)?;
                }
                column += word.len() + 1;
            }
        }
        Ok(found)
    }

    fn take(&mut self, line: usize, column: usize, word: &[u8]) -> Result<(), Fault> {
        let digits = word.iter().all(u8::is_ascii_digit);
        let value = std::str::from_utf8(word).ok().and_then(|w| w.trim_start_matches('0').parse().ok());
        let zero = word.iter().all(|&byte| byte == b'0');
        match value.or(zero.then_some(0)) {
            Some(value) if digits => self.values.push(value),
            _ => return Err(Fault::Word { line, column, word: word.to_vec() }),
        }
        self.places.push((line, column));
        if self.values.len() > MOST {
            return Err(Fault::Many { line, column });
        }
        Ok(())
    }

    /// The place of a number, in words.
    pub fn place(&self, at: usize) -> String {
        let (line, column) = self.places[at];
        format!("line {line}, column {column}")
    }
}

impl fmt::Display for Fault {
    fn fmt(&self, f: &mut fmt::Formatter) -> fmt::Result {
        match self {
            Fault::Word { line, column, word } => {
                let shown = word.iter().take(16).map(|&b| if b.is_ascii_graphic() { b as char } else { '?' });
                write!(
                    f,
                    "Line {line}, column {column}: `{}` is no decimal number up to 65535.",
                    shown.collect::<String>()
                )?;
                match word.iter().find(|&&byte| !byte.is_ascii_graphic()) {
                    Some(byte) => {
                        write!(f, " It has the byte {byte}; between numbers stand only blanks and line feeds.")
                    }
                    None => Ok(()),
                }
            }
            Fault::Many { line, column } => {
                write!(f, "Line {line}, column {column}: this is number {}; a card has at most {MOST}.", MOST + 1)
            }
        }
    }
}
