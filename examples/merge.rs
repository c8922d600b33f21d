// Merges two cards: prints a card whose sentences are those of either, for maketable.
//
//   merge FIRST SECOND
//
// FIRST and SECOND are files with a card each, in the form that maketable reads: at most 772 decimal numbers up to 65535,
// with blanks and line feeds between. The merged card has the sizes on its first line, the left sides on the second, the
// lengths on the third and the symbols on the fourth.
//
// Status: 0 for a merged card; 1 for a refusal: `refused` and its number, for 10 with the nonterminal, are printed, and
// standard error says which card is meant and why; 2 for trouble, told on standard error: a file that cannot be read or
// has another form, a failed write. (Where standard output is closed Rust writes to /dev/null: that is not told.)
mod card;

use card::{end, fail, load, print, refused};
use sidumza::merge::{merged_of, Refusal};
use std::ffi::OsString;

const PROGRAM: &str = "merge";

fn line(numbers: &[u16]) -> String {
    let words: Vec<String> = numbers.iter().map(u16::to_string).collect();
    words.join(" ") + "\n"
}

// A card as maketable reads it.
fn card_text(card: &[u16]) -> String {
    let (sizes, rest) = card.split_at(4);
    let (left, rest) = rest.split_at(sizes[2].into());
    let (lengths, symbols) = rest.split_at(sizes[2].into());
    line(sizes) + &line(left) + &line(lengths) + &line(symbols)
}

// A refusal as maketable prints it.
fn refusal_text(refusal: Refusal) -> String {
    match refusal {
        Refusal::Card { refusal, .. } => refused(refusal),
        _ => format!("refused {}\n", refusal.number()),
    }
}

fn main() {
    let args: Vec<OsString> = std::env::args_os().collect();
    let [_, first, second] = &args[..] else { fail("usage: merge FIRST SECOND") };
    let (first, second) = (load(first), load(second));
    match merged_of(&first, &second) {
        Ok(merged) => print(&card_text(&merged)),
        Err(refusal) => {
            print(&refusal_text(refusal));
            end(&refusal.to_string(), 1)
        }
    }
}
