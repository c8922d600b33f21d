// The archive against an independent reader, on random cases: the publisher's call and the choir's, and both beside each
// other.
//
//   reader_test              the archive, CASES cases (2,000,000) from SEED (1)
//   reader_test self-check   wrong readers in the archive's place: each must be told from the right one
//   reader_test enough       the lengths that bindings/c/sidumza.h says are enough, CASES cases (100,000)
mod cases;
mod closed;
mod compared;
mod guarded;
mod lalr;
mod lent;
mod offers;
mod reference;
mod seen;
mod wrong;

use cases::{Case, Cases};
use guarded::Guarded;
use reference::{Lent, Outcome, PATIENCE};
use seen::Seen;
use sidumza::{Answer, Refusal};

extern "C" {
    fn sidumza_parse(
        table: *const u16,
        table_len: usize,
        input: *const u8,
        input_len: usize,
        stack: *mut u16,
        stack_len: usize,
        list: *mut u16,
        list_len: usize,
        second: *mut u16,
        second_len: usize,
        step_limit: u64,
        out: *mut u64,
    );
    fn sidumza_parse_restricted(
        table: *const u16,
        table_len: usize,
        input: *const u8,
        input_len: usize,
        closed: u64,
        stack: *mut u16,
        stack_len: usize,
        list: *mut u16,
        list_len: usize,
        second: *mut u16,
        second_len: usize,
        step_limit: u64,
        out: *mut u64,
    );
}

// The call: the publisher's, or the choir's, which takes the case's word.
#[derive(Clone, Copy, PartialEq)]
pub enum Entry {
    Publisher,
    Choir,
}

const ENTRIES: [Entry; 2] = [Entry::Publisher, Entry::Choir];

impl Entry {
    // The word that it is given.
    fn closed(self, c: &Case) -> Option<u64> {
        (self == Entry::Choir).then_some(c.closed)
    }
}

// The seven numbers and the three areas after a call.
#[derive(Default, PartialEq)]
pub struct Result {
    out: [u64; 7],
    stack: Vec<u16>,
    list: Vec<u16>,
    second: Vec<u16>,
}

impl Result {
    fn start(&mut self, c: &Case) {
        self.stack.clone_from(&c.stack);
        self.list.clone_from(&c.list);
        self.second.clone_from(&c.second);
    }

    fn lent(&mut self) -> Lent<'_> {
        Lent { stack: &mut self.stack, list: &mut self.list, second: &mut self.second }
    }

    // By the reference, with what it knows besides.
    fn plainly(&mut self, c: &Case, entry: Entry) -> Outcome {
        self.start(c);
        let o = reference::parse(&c.table, &c.input, entry.closed(c).unwrap_or(0), self.lent(), c.limit);
        self.out = o.out;
        o
    }

    // How another result differs.
    fn difference(&self, other: &Result) -> Option<String> {
        if self.out != other.out {
            return Some(format!("answer {:?}, expected {:?}", other.out, self.out));
        }
        let areas = [
            ("stack", &self.stack, &other.stack),
            ("list", &self.list, &other.list),
            ("second", &self.second, &other.second),
        ];
        let differs = areas.iter().find(|(_, ours, theirs)| ours != theirs);
        differs.map(|(name, ..)| format!("the {name} area after answer {:?}", self.out))
    }
}

trait Reader {
    fn read(&mut self, c: &Case, entry: Entry, result: &mut Result);
}

// A wrong reader, in one of the calls.
struct Wrong(&'static str, Entry);

impl Reader for Wrong {
    fn read(&mut self, c: &Case, entry: Entry, r: &mut Result) {
        r.start(c);
        let Result { stack, list, second, .. } = r;
        let closed = entry.closed(c);
        let call = wrong::Call { table: &c.table, input: &c.input, stack, list, second, limit: c.limit, closed };
        r.out = wrong::parse(if entry == self.1 { self.0 } else { wrong::FAULTS[0] }, call);
    }
}

// The archive, called by the C interface on guarded memory, and now and then by the Rust wrapper.
struct Archive {
    table: Guarded,
    input: Guarded,
    stack: Guarded,
    list: Guarded,
    second: Guarded,
    out: Guarded,
    calls: u64,
}

// A place for numbers, or none where there are no numbers and none is wanted; and how many they are.
fn or_null<T: Copy>(place: &mut Guarded, numbers: &[T], null: bool) -> (*mut T, usize) {
    let p = place.place(numbers);
    if null && numbers.is_empty() {
        (std::ptr::null_mut(), 0)
    } else {
        (p, numbers.len())
    }
}

// What lies in an area now.
fn taken<T: Copy>(area: &Guarded, into: &mut Vec<T>) {
    into.clear();
    into.extend_from_slice(area.take().expect("wrote in front of an area"));
}

impl Archive {
    fn new() -> Archive {
        let [table, input, stack, list, second, out] = [70000, 70000, 200000, 500000, 200000, 56].map(Guarded::new);
        Archive { table, input, stack, list, second, out, calls: 0 }
    }

    fn call(&mut self, c: &Case, entry: Entry) -> [u64; 7] {
        let null = self.calls % 5 < 2;
        let (table, t) = or_null(&mut self.table, &c.table, null);
        let (input, i) = or_null(&mut self.input, &c.input, null);
        let (stack, s) = or_null(&mut self.stack, &c.stack, null);
        let (list, l) = or_null(&mut self.list, &c.list, null);
        let (second, v) = or_null(&mut self.second, &c.second, null);
        let out = self.out.place(&[self.calls.wrapping_mul(0x9e3779b97f4a7c15); 7]);
        // SAFETY: six areas apart from each other, each as long as is said.
        unsafe {
            if let Some(word) = entry.closed(c) {
                sidumza_parse_restricted(table, t, input, i, word, stack, s, list, l, second, v, c.limit, out);
            } else {
                sidumza_parse(table, t, input, i, stack, s, list, l, second, v, c.limit, out);
            }
        }
        assert!(self.table.take() == Some(&c.table[..]), "wrote the table");
        assert!(self.input.take() == Some(&c.input[..]), "wrote the input");
        self.out.take().expect("wrote in front of the answer").try_into().unwrap()
    }
}

impl Reader for Archive {
    fn read(&mut self, c: &Case, entry: Entry, r: &mut Result) {
        self.calls += 1;
        // Another number of calls than a case has, so that each of them has its turn.
        if self.calls.is_multiple_of(11) {
            r.start(c);
            r.out = numbers(wrapped(c, entry, r.lent(), c.limit));
            return;
        }
        r.out = self.call(c, entry);
        taken(&self.stack, &mut r.stack);
        taken(&self.list, &mut r.list);
        taken(&self.second, &mut r.second);
    }
}

// By the Rust wrapper.
fn wrapped(c: &Case, entry: Entry, Lent { stack, list, second }: Lent, limit: u64) -> Answer {
    match entry.closed(c) {
        None => sidumza::parse(&c.table, &c.input, stack, list, second, limit),
        Some(word) => sidumza::parse_restricted(&c.table, &c.input, word, stack, list, second, limit),
    }
}

// The seven numbers that an answer of the wrapper stands for.
fn numbers(a: Answer) -> [u64; 7] {
    let (n, c) = match a {
        Answer::Refused { refusal } => {
            let number = match refusal {
                Refusal::TableShort => 21,
                Refusal::BadSizes => 22,
                Refusal::BadProduction => 23,
                Refusal::BadCell => 24,
                Refusal::InputLong => 25,
                Refusal::BadTerminal => 26,
                Refusal::NoStack => 27,
                Refusal::BadEntered => 44,
                Refusal::SecondShort => 45,
                Refusal::BadClosed => 50,
            };
            return [number, 0, 0, 0, 0, 0, 0];
        }
        Answer::NoAction { position, expected, expected_count, counts: c } => {
            let listed = (0..64).filter(|m| expected >> m & 1 == 1);
            assert!(sidumza::terminals(expected).eq(listed), "the terminals of {expected:x}");
            let (place, count) = (position as u64, expected_count as u64);
            return [31, c.steps, c.depth as u64, c.listed as u64, place, expected, count];
        }
        Answer::ExpectedUnknown { position, counts: c } => {
            return [46, c.steps, c.depth as u64, c.listed as u64, position as u64, 0, 0];
        }
        Answer::Accepted { counts } => (0, counts),
        Answer::StepLimit { counts } => (32, counts),
        Answer::StackFull { counts } => (33, counts),
        Answer::ListFull { counts } => (34, counts),
        Answer::BadGoto { counts } => (35, counts),
    };
    [n, c.steps, c.depth as u64, c.listed as u64, 0, 0, 0]
}

// What a reader is compared with.
#[derive(Clone, Copy)]
enum Against {
    // The reference: one of the calls, or both; these also with each other.
    Reference(Entry),
    Both,
    // The calls with each other alone.
    EachOther,
}

impl Against {
    fn entries(self) -> &'static [Entry] {
        match self {
            Against::Reference(Entry::Publisher) => &ENTRIES[..1],
            Against::Reference(Entry::Choir) => &ENTRIES[1..],
            _ => &ENTRIES,
        }
    }
}

// A case of both calls by the reference: the results, and what it knows besides.
#[derive(Default)]
struct Plainly {
    results: [Result; 2],
    outcomes: [Outcome; 2],
}

impl Plainly {
    // The step of the first call at which a fresh reading was given up, or 0.
    fn endless(&mut self, c: &Case, entries: &[Entry]) -> u64 {
        for &entry in entries {
            self.outcomes[entry as usize] = self.results[entry as usize].plainly(c, entry);
        }
        entries.iter().map(|&entry| self.outcomes[entry as usize].endless).find(|&endless| endless > 0).unwrap_or(0)
    }
}

// How the calls of a reader differ from the reference, or from each other.
fn difference(
    reader: &mut dyn Reader,
    against: Against,
    c: &Case,
    ours: &Plainly,
    theirs: &mut [Result; 3],
) -> Option<String> {
    for &entry in against.entries() {
        reader.read(c, entry, &mut theirs[entry as usize]);
        if let Against::Reference(_) | Against::Both = against {
            if let Some(what) = ours.results[entry as usize].difference(&theirs[entry as usize]) {
                let word = entry.closed(c).map_or(String::new(), |word| format!("word {word:x}: "));
                return Some(format!("{word}{what}"));
            }
        }
    }
    if let Against::Reference(_) = against {
        return None;
    }
    let [publisher, choir, masked] = theirs;
    compared::difference(c, publisher, choir)
        .or_else(|| {
            let case = compared::masked(c, publisher, choir)?;
            reader.read(&case, Entry::Publisher, masked);
            let what = masked.difference(choir)?;
            Some(format!("by the table with 0 in the closed columns: {what}"))
        })
        .map(|what| format!("both calls, word {:x}: {what}", c.closed))
}

// Compares a reader until a case differs: what was seen, and the first case that differs, and how.
fn compare(reader: &mut dyn Reader, against: Against, mut cases: Cases, count: u64) -> (Seen, Option<(u64, String)>) {
    let (mut ours, mut theirs) = (Plainly::default(), <[Result; 3]>::default());
    let mut seen = Seen::default();
    for k in 0..count {
        cases.step();
        let mut lowered = false;
        loop {
            let endless = ours.endless(&cases.case, against.entries());
            if endless == 0 {
                break;
            }
            // Nobody would wait for the limit: another, which ends that fresh reading.
            cases.case.limit = endless - 1 - k % PATIENCE;
            lowered = true;
        }
        let c = &cases.case;
        let what = difference(reader, against, c, &ours, &mut theirs);
        if let Against::Both = against {
            seen.endless += lowered as u64;
            let [publisher, choir] = &ours.results;
            seen.count(c, &ours.outcomes, [&publisher.stack, &choir.stack]);
        }
        if let Some(what) = what {
            return (seen, Some((k, what)));
        }
    }
    (seen, None)
}

fn from_environment(name: &str, default: u64) -> u64 {
    match std::env::var(name) {
        Ok(s) => s.parse().unwrap_or_else(|_| panic!("{name} is no number")),
        Err(_) => default,
    }
}

// Every one of these faults, planted in one of the calls, must be found within a million cases; the first case where all of
// them are.
fn all_found(faults: &[&'static str], entry: Entry, against: Against, cases: &Cases) -> Option<u64> {
    let found = |&fault: &&'static str| {
        let found = compare(&mut Wrong(fault, entry), against, cases.clone(), 1_000_000).1;
        if found.is_none() {
            println!("self-check: {fault}: not found");
        }
        found.map(|(k, _)| k)
    };
    let all: Vec<Option<u64>> = faults.iter().map(found).collect();
    all.into_iter().try_fold(0, |latest, k| Some(latest.max(k?)))
}

// Without a fault nothing is found, and every fault is: those of both calls in each of them, those of closed terminals in
// the choir's, by the reference and by the other call alone.
fn self_check(seed: u64) -> bool {
    let [none, both @ ..] = &wrong::FAULTS;
    let cases = Cases::new(seed);
    let right = compare(&mut Wrong(none, Entry::Publisher), Against::Both, cases.clone(), 100_000).1;
    if let Some((_, what)) = &right {
        println!("self-check: {none}: {what}");
    }
    let told = |what: &str, faults: &[&'static str], entry: Entry, against: Against| {
        let latest = all_found(faults, entry, against, &cases);
        if let Some(k) = latest {
            println!("self-check: {} wrong readers {what}, the last found at case {k}", faults.len());
        }
        latest.is_some()
    };
    right.is_none()
        & told("in the publisher's call", both, Entry::Publisher, Against::Reference(Entry::Publisher))
        & told("in the choir's", both, Entry::Choir, Against::Reference(Entry::Choir))
        & told("with closed terminals", &wrong::CLOSED, Entry::Choir, Against::Reference(Entry::Choir))
        & told("with these beside the publisher's", &wrong::CLOSED, Entry::Choir, Against::EachOther)
}

fn main() {
    let seed = from_environment("SEED", 1);
    if std::env::args().nth(1).as_deref() == Some("self-check") {
        println!("seed {seed}");
        std::process::exit(!self_check(seed) as i32);
    }
    if std::env::args().nth(1).as_deref() == Some("enough") {
        std::process::exit(!lent::enough(seed, from_environment("CASES", 100_000)) as i32);
    }
    let count = from_environment("CASES", 2_000_000);
    println!("seed {seed}, {count} cases");
    let (seen, difference) = compare(&mut Archive::new(), Against::Both, Cases::new(seed), count);
    if let Some((k, what)) = difference {
        println!("case {k} of seed {seed} differs: {what}");
        std::process::exit(1);
    }
    std::process::exit(!seen.enough() as i32);
}
