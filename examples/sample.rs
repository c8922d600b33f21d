// Samples for teachers: prints a shortest sentence that uses a production, for one production of a card or for each.
//
//   sample CARD [PRODUCTION]
//
// CARD is a file with a card in the form that maketable reads: at most 772 decimal numbers up to 65535, with blanks and
// line feeds between. PRODUCTION is a production by its number, counted from 0, up to 18446744073709551615. It gets one
// line; where none is named each production of the card gets one, in their order. With a sample it is
//
//   production 0: length 2: 2 1
//
// with the sample's length and its terminals, of which there may be none; else
//
//   production 5: refused 48: no such production
//   production 1: refused 49: no sentence of up to 255 terminals uses the production
//
// Which of several equally short samples is printed is open.
//
// Status: 0 where each line has a sample; 1 for a refusal, of a production or of the card: then `refused` and its number,
// for 10 with the nonterminal, are all that is printed, and standard error says why; 2 for trouble, told on standard error:
// a file that cannot be read or has another form, a PRODUCTION that is no such number, a failed write. (Where standard
// output is closed Rust writes to /dev/null: that is not told.)
mod card;

use card::{end, fail, load, print, refused};
use sidumza::generator;
use sidumza::sample::{sample_of, Refusal};
use std::ffi::{OsStr, OsString};

const PROGRAM: &str = "sample";

// The production that an argument names.
fn production_of(word: &OsStr) -> u64 {
    let word = word.to_string_lossy();
    let digits = word.bytes().all(|b| b.is_ascii_digit());
    let number = word.parse().ok().filter(|_| digits);
    number.unwrap_or_else(|| fail(&format!("{word}: not a number up to {}", u64::MAX)))
}

// The end for a card that is refused.
fn refuse(refusal: generator::Refusal) -> ! {
    print(&refused(refusal));
    end(&refusal.to_string(), 1)
}

// The line of a production, and whether it has a sample.
fn line(card: &[u16], production: u64) -> (String, bool) {
    let sample = sample_of(card, production);
    let answer = match &sample {
        Ok(terminals) => {
            let words: String = terminals.iter().map(|m| format!(" {m}")).collect();
            format!("length {}:{words}", terminals.len())
        }
        Err(Refusal::Card { refusal }) => refuse(*refusal),
        Err(refusal) => refusal.to_string(),
    };
    (format!("production {production}: {answer}\n"), sample.is_ok())
}

fn main() {
    let args: Vec<OsString> = std::env::args_os().collect();
    let (path, production) = match &args[..] {
        [_, path] => (path, None),
        [_, path, word] => (path, Some(production_of(word))),
        _ => fail("usage: sample CARD [PRODUCTION]"),
    };
    let card = load(path);
    // ends where the card is refused; so below card[2] is P
    let mut lines = vec![line(&card, production.unwrap_or(0))];
    if production.is_none() {
        lines.extend((1..card[2].into()).map(|r| line(&card, r)));
    }
    let text: String = lines.iter().map(|(line, _)| line.as_str()).collect();
    print(&text);
    std::process::exit(i32::from(lines.iter().any(|(_, is_sample)| !is_sample)));
}
