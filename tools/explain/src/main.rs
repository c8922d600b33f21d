//! explain: reads a card from standard input. The script `explain` builds and runs it.

use std::io::{Read, Write};
use std::process::ExitCode;

fn main() -> ExitCode {
    let mut text = Vec::new();
    if let Err(error) = std::io::stdin().lock().read_to_end(&mut text) {
        eprintln!("explain: read: {error}");
        return ExitCode::from(2);
    }
    let told = explain::explain(&text, &sidumza::generator::table_of);
    let mut out = std::io::stdout().lock();
    if let Err(error) = out.write_all(told.text.as_bytes()).and_then(|()| out.flush()) {
        eprintln!("explain: write: {error}");
        return ExitCode::from(2);
    }
    if told.status == 2 {
        eprintln!("explain: it does not find what the maker finds");
    }
    ExitCode::from(told.status)
}
