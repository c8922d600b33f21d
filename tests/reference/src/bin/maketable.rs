//! The program `maketable` by the reference: a card from standard input, its
//! table or refusal to standard output.

use reference::program::{run, words};

/// A table as printed.
fn listed(table: &[u16]) -> Vec<u8> {
    let (q, p) = (table[0] as usize, table[3] as usize);
    let mut lines = format!("table {}\n", words(&table[..4]));
    lines += &format!("left {}\n", words(&table[4..4 + p]));
    lines += &format!("length {}\n", words(&table[4 + p..4 + 2 * p]));
    let (entered, cells) = table[4 + 2 * p..].split_at(q);
    lines += &format!("entered {}\n", words(entered));
    let rows = cells.chunks((table[1] + table[2]) as usize);
    for (state, row) in rows.enumerate() {
        lines += &format!("row {state} : {}\n", words(row));
    }
    lines.into_bytes()
}

fn main() -> std::io::Result<()> {
    run(listed)
}
