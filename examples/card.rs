// What the programs over card files share: messages, the reading of a card, refusals by 4 to 10.
//
// A program has a constant PROGRAM, its name. A card file has the form that maketable reads: at most 772 decimal numbers
// up to 65535, with blanks and line feeds between.
use super::PROGRAM;
use sidumza::generator::{Refusal, CARD};
use std::ffi::OsStr;
use std::fs::File;
use std::io::{BufReader, Read, Write};

// Says something, where standard error can be written, and ends.
pub fn end(what: &str, status: i32) -> ! {
    let _ = writeln!(std::io::stderr(), "{PROGRAM}: {what}");
    std::process::exit(status)
}

pub fn fail(why: &str) -> ! {
    end(why, 2)
}

// Adds a digit to the number that it belongs to, the last one or a new one; else why there is no such number.
fn digit(card: &mut Vec<u16>, inside: bool, digit: u8) -> Result<(), String> {
    if !inside && card.len() == CARD {
        return Err(format!("more than {CARD} numbers"));
    }
    if !inside {
        card.push(0);
    }
    let last = card.last_mut().expect("a number has begun");
    let value = u16::try_from(10 * u32::from(*last) + u32::from(digit));
    *last = value.map_err(|_| "a number above 65535")?;
    Ok(())
}

// Reads the card of a file.
pub fn load(path: &OsStr) -> Vec<u16> {
    let name = path.to_string_lossy();
    let file = File::open(path).unwrap_or_else(|e| fail(&format!("{name}: {e}")));
    let mut card = Vec::new();
    let (mut line, mut column, mut inside) = (1, 1, false);
    for byte in BufReader::new(file).bytes() {
        let byte = byte.unwrap_or_else(|e| fail(&format!("{name}: {e}")));
        let fed = match byte {
            b'0'..=b'9' => digit(&mut card, inside, byte - b'0'),
            b' ' | b'\n' => Ok(()),
            _ => Err(format!("byte {byte} is no digit, blank or line feed")),
        };
        fed.unwrap_or_else(|why| fail(&format!("{name}: not a card: line {line}, column {column}: {why}")));
        inside = byte.is_ascii_digit();
        (line, column) = if byte == b'\n' { (line + 1, 1) } else { (line, column + 1) };
    }
    card
}

// The refusal of a card as maketable prints it.
pub fn refused(refusal: Refusal) -> String {
    match refusal {
        Refusal::Useless { nonterminal } => format!("refused 10 {nonterminal}\n"),
        _ => format!("refused {}\n", refusal.number()),
    }
}

// Prints a text, and sees that all of it is written.
pub fn print(text: &str) {
    let mut out = std::io::stdout().lock();
    if let Err(e) = out.write_all(text.as_bytes()).and_then(|()| out.flush()) {
        fail(&format!("write: {e}"));
    }
}
