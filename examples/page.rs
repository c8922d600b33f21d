// A page program: parses each line of standard input by the table of a file.
//
//   page [--closed TERMINALS] TABLE [STEP_LIMIT [STACK [LIST [SECOND]]]]
//
// TABLE is a table as maketable prints it. A line is terminals in decimal; an empty line is the empty
// input. Each line gets one line of answer. That of a wrong line names the symbols that the terminals before
// the place were read as, those under which the states on the stack were entered, and the terminals that can follow there.
//
// TERMINALS, numbers up to 63 with commas between, are closed: the lines are read as a choir's, in which such a terminal
// is wrong (the answer begins with `closed` in place of `wrong`) and is never expected. The end marker 0, and what is no
// terminal of the table, cannot be closed (50): a message, and status 2. Without `--closed` the lines are a publisher's.
//
// STEP_LIMIT: up to 18446744073709551615; 1000000 where none is given. STACK, LIST and SECOND, in places: up to 16777216
// each; 65536, 1000000 and STACK + 1 where none is given. Where no production is empty, 65536 and 65537 places of stack and
// second area are enough for every line. With no stack (27) and with SECOND shorter than STACK (45) no line is read: a
// message, and status 2, as for a bad table.
//
// So no line makes more than 16842752 steps here: each but the acceptance passes a terminal or takes a place of LIST. The
// fresh readings that find what can follow have no list: only STEP_LIMIT bounds the time that they take. Where one of them
// is cut short (32, 33 or 35), the answer has `expected unknown (46)`: allow more steps or a longer second area.
use sidumza::{entered, parse, parse_restricted, read_table, terminals, Answer, Counts, Refusal};
use std::io::{BufRead, Write};

fn fail(why: String) -> ! {
    let _ = writeln!(std::io::stderr(), "page: {why}");
    std::process::exit(2)
}

// A decimal number up to max; digits only.
fn number(word: &str, max: u64) -> Option<u64> {
    let digits = !word.is_empty() && word.bytes().all(|b| b.is_ascii_digit());
    word.parse().ok().filter(|&v| digits && v <= max)
}

fn words(numbers: impl Iterator<Item = u32>) -> String {
    numbers.map(|n| format!(" {n}")).collect()
}

fn show(answer: Answer, input: &[u8], closed: u64, table: &[u16], stack: &[u16], list: &[u16]) -> String {
    // a wrong line: where a closed terminal may stand, what the terminals before it were read as, and what can follow there
    let wrong = |position: usize, counts: Counts, expected: String| {
        let is_closed = input.get(position).is_some_and(|&m| closed >> m & 1 == 1);
        let what = if is_closed { "closed" } else { "wrong" };
        let read = words(stack[1..counts.depth].iter().map(|&q| entered(table)[q as usize].into()));
        let after = if read.is_empty() { "" } else { ", after" };
        format!("{what} at {position}: steps {}{after}{read}, expected{expected}", counts.steps)
    };
    match answer {
        Answer::Accepted { counts } => {
            let listed = words(list[..counts.listed].iter().map(|&p| p.into()));
            format!("accepted: steps {}, productions{listed}", counts.steps)
        }
        Answer::NoAction { position, expected: 0, counts, .. } => wrong(position, counts, " nothing".to_string()),
        Answer::NoAction { position, expected, counts, .. } => wrong(position, counts, words(terminals(expected))),
        Answer::ExpectedUnknown { position, counts } => wrong(position, counts, " unknown (46)".to_string()),
        other => other.to_string(),
    }
}

// The word of closed terminals: a bit for each of them.
fn closed_word(list: &str) -> u64 {
    let bit = |word| number(word, 63).map(|m| 1 << m);
    let word = list.split(',').try_fold(0, |all, word| Some(all | bit(word)?));
    word.unwrap_or_else(|| fail(format!("--closed {list}: not numbers up to 63 with commas between")))
}

// The step limit and the lengths of stack, list and second area, where arguments give them.
fn limits(args: &[String]) -> [u64; 4] {
    let most = [u64::MAX, 1 << 24, 1 << 24, 1 << 24];
    if args.len() < 2 || args.len() > 2 + most.len() || args[1..].iter().any(|word| word.starts_with("--")) {
        fail("usage: page [--closed TERMINALS] TABLE [STEP_LIMIT [STACK [LIST [SECOND]]]]".to_string());
    }
    let mut limits = [1000000, 65536, 1000000, 0];
    for ((word, limit), max) in args[2..].iter().zip(&mut limits).zip(most) {
        *limit = number(word, max).unwrap_or_else(|| fail(format!("{word}: not a number up to {max}")));
    }
    if args.len() < 2 + most.len() {
        limits[3] = limits[1] + 1;
    }
    limits
}

// Says why no line is read: the table of so many terminals, an area or the list of closed terminals is refused.
fn refused(refusal: Refusal, path: &str, closed: &str, terminals: u16) -> ! {
    let what = match refusal {
        Refusal::NoStack => "STACK",
        Refusal::SecondShort => "SECOND",
        Refusal::BadClosed if terminals == 1 => fail(format!("--closed {closed}: refused 50: nothing can be closed")),
        Refusal::BadClosed => fail(format!("--closed {closed}: refused 50: only 1 to {} can be closed", terminals - 1)),
        _ => path,
    };
    fail(format!("{what}: {refusal}"))
}

// The terminals of a line; None where it has something else.
fn line_of_terminals(line: &[u8]) -> Option<Vec<u8>> {
    let line = String::from_utf8_lossy(line);
    line.split_ascii_whitespace().map(|word| Some(number(word, 255)? as u8)).collect()
}

fn main() {
    let mut args: Vec<String> = std::env::args_os().map(|a| a.to_string_lossy().into_owned()).collect();
    let restricted = args.len() > 2 && args[1] == "--closed";
    let list_of_closed = restricted.then(|| args.drain(1..3).nth(1).unwrap());
    let closed = list_of_closed.as_deref().map(closed_word);
    let limits = limits(&args);
    let path = &args[1];
    let text = std::fs::read(path).unwrap_or_else(|e| fail(format!("{path}: {e}")));
    let table = read_table(&text).unwrap_or_else(|fault| fail(format!("{path}: {fault}")));
    let [mut stack, mut list, mut second] = [1, 2, 3].map(|i| vec![0; limits[i] as usize]);
    let mut read = |input: &[u8], limit: u64| {
        let answer = match closed {
            Some(word) => parse_restricted(&table, input, word, &mut stack, &mut list, &mut second, limit),
            None => parse(&table, input, &mut stack, &mut list, &mut second, limit),
        };
        (answer, show(answer, input, closed.unwrap_or(0), &table, &stack, &list))
    };
    if let (Answer::Refused { refusal }, _) = read(&[], 0) {
        refused(refusal, path, &list_of_closed.unwrap_or_default(), table[1]);
    }
    let mut out = std::io::BufWriter::new(std::io::stdout().lock());
    for (k, line) in std::io::stdin().lock().split(b'\n').enumerate() {
        let line = line.unwrap_or_else(|e| {
            let _ = out.flush();
            fail(e.to_string())
        });
        let Some(input) = line_of_terminals(&line) else {
            let _ = out.flush();
            fail(format!("line {}: not a line of terminals", k + 1))
        };
        writeln!(out, "{}", read(&input, limits[0]).1).unwrap_or_else(|e| fail(e.to_string()));
    }
    out.flush().unwrap_or_else(|e| fail(e.to_string()));
}
