//! As read.c, with the Rust crate's reading.
use std::io::{BufRead, Read, Write};

#[path = "../../bindings/rust/src/table.rs"]
mod table;

/// The entering symbol of a state, 0 where there is none.
fn entered(table: &[u16], state: usize) -> u16 {
    table::entered(table).get(state).copied().unwrap_or(0)
}

fn main() {
    let (mut input, mut out) = (std::io::stdin().lock(), std::io::BufWriter::new(std::io::stdout().lock()));
    let mut line = String::new();
    while input.read_line(&mut line).expect("a line") > 0 {
        let mut text = vec![0; line.trim_end().parse().expect("a length")];
        input.read_exact(&mut text).expect("a text");
        match table::read_table(&text) {
            Ok(table) => {
                let words: Vec<String> = table.iter().map(u16::to_string).collect();
                let states = table[0] as usize;
                let symbols: String = (0..=states).map(|q| format!(" {}", entered(&table, q))).collect();
                let found = (0..table.len()).find(|&least| entered(&table[..least], states - 1) != 0);
                let least = found.unwrap_or(table.len());
                writeln!(out, "{}, entered{symbols} by {least}", words.join(" ")).expect("written");
            }
            Err(fault) => writeln!(out, "{fault}").expect("written"),
        }
        line.clear();
    }
}
