//! Tables on pages, against the reference's writer: single lists of numbers and random
//! ones, whole or damaged, with buffers that hold all of the text, a part or more. All
//! cells are read back. Planted faults must be found, by the single lists and by the
//! random ones, and by the cells alone where a cell is not read back.

mod cases;
pub mod faults;
mod kinds;
mod tables;

use reference::pages::{cell, pages as right, value, Sight, COLUMNS};
use reference::random::Random;

use crate::abi::{self, Pages};
use crate::guarded::Guarded;
use crate::show;
use cases::{cases, Case};
use faults::{Fault, Seen, FAULTS};
use kinds::{Kinds, KINDS};
use tables::Sizes;

/// What is looked at.
#[derive(Clone, Copy, PartialEq, Eq)]
enum By {
    /// Every byte of table and buffer, what is answered, and the cells.
    All,
    /// The cells alone, read back from the buffer.
    Cells,
}

/// The table and the buffer, each directly before a page that nobody may touch.
struct Checker {
    random: Random,
    table: Guarded,
    out: Guarded,
    by: By,
    kinds: Kinds,
}

/// Bytes of room for a table and for a text.
const TABLE: usize = 1 << 20;
const TEXT: usize = 1 << 23;

/// So many states have up to four digits, and their lines the paper's columns.
const READABLE: usize = 10_000;

impl Checker {
    fn new() -> Checker {
        Checker {
            random: Random::new(0),
            table: Guarded::new(TABLE),
            out: Guarded::new(TEXT),
            by: By::All,
            kinds: Kinds::default(),
        }
    }

    /// As new, with a seed and with what is looked at.
    fn restart(&mut self, seed: u64, by: By) {
        self.random = Random::new(seed);
        self.by = by;
        self.kinds = Kinds::default();
    }

    /// What a buffer holds before the call: no byte of a text.
    fn old(&mut self, room: usize) -> Vec<u8> {
        let from = self.random.below(97);
        (from..from + room).map(|at| 128 + (at % 97) as u8).collect()
    }

    /// Calls the function with a table and a buffer of so many bytes; fails where the
    /// answer or what is left differs from what is expected.
    fn compare(
        &mut self,
        table: &[u16],
        text: &[u8],
        room: usize,
        tested: &Pages,
    ) -> Result<(), String> {
        assert!(std::mem::size_of_val(table) <= TABLE && room <= TEXT, "too large for the test");
        let old = self.old(room);
        let (list, out) = (self.table.place(table), self.out.place(&old));
        // SAFETY: so many numbers were placed there.
        let (list, out) = unsafe {
            let list = std::slice::from_raw_parts(list, table.len());
            (list, std::slice::from_raw_parts_mut(out, room))
        };
        let used = tested(list, out);
        if self.by == By::All {
            self.unharmed(table)?;
            same(out, used, &old, text)?;
        }
        match text.len() <= room {
            true => read_back(table, &out[..used.min(room)]),
            false => Ok(()),
        }
    }

    /// The table is as it was, and so is what lies before it and before the buffer.
    fn unharmed(&self, table: &[u16]) -> Result<(), String> {
        if self.table.take() != Some(table) {
            return Err("the table was written".into());
        }
        match self.out.take::<u8>() {
            Some(_) => Ok(()),
            None => Err("written before the buffer".into()),
        }
    }

    /// A single list: with the reference, and with what is written out.
    fn case(&mut self, case: &Case, tested: &Pages) -> Result<(), String> {
        case.holds().map_err(|what| format!("the reference differs: {what}"))?;
        case.rooms.iter().try_for_each(|room| {
            self.compare(&case.table, &case.text, room.bytes(case.text.len()), tested)
        })
    }

    /// The next random list.
    fn next(&mut self, tested: &Pages) -> Result<(), String> {
        let table = tables::table(&mut self.random);
        let text = right(&table);
        let room = tables::room(&mut self.random, text.len());
        self.kinds.count(&table, text.len(), room);
        let told = |what| {
            let shown = show(&table[..table.len().min(300)]);
            format!("{} numbers {shown}, room for {room} bytes: {what}", table.len())
        };
        self.compare(&table, &text, room, tested).map_err(told)
    }
}

/// The text stands at the front as far as there is room, what is behind it is as it was,
/// and so many bytes are said to be used.
fn same(left: &[u8], used: usize, old: &[u8], text: &[u8]) -> Result<(), String> {
    let written = text.len().min(left.len());
    if let Some(at) = (0..written).find(|&at| left[at] != text[at]) {
        let (line, column) = (at / (COLUMNS + 1), at % (COLUMNS + 1));
        let from = at.saturating_sub(10);
        let part =
            |bytes: &[u8]| String::from_utf8_lossy(&bytes[from..written.min(at + 10)]).into_owned();
        let (one, two) = (part(left), part(text));
        return Err(format!("line {line}, column {column}: {one:?}, expected {two:?}"));
    }
    if let Some(at) = (written..left.len()).find(|&at| left[at] != old[at]) {
        return Err(format!("byte {at} behind {written} was written"));
    }
    match used == written {
        true => Ok(()),
        false => Err(format!("{used} bytes said to be used, expected {written}")),
    }
}

/// Every cell is found by counting lines and by eye.
fn read_back(table: &[u16], pages: &[u8]) -> Result<(), String> {
    let sizes = Sizes::of(table);
    if sizes.states > READABLE {
        return Ok(());
    }
    let sight = Sight::new(pages);
    for state in 0..sizes.states {
        for symbol in 0..sizes.width() {
            let right = Some(value(table, state, symbol));
            let counted = cell(pages, sizes.width(), state, symbol);
            let seen = sight.cell(state, symbol);
            if counted != right || seen != right {
                let found = format!("{counted:?} by counting lines, {seen:?} by eye");
                return Err(format!("state {state}, symbol {symbol}: {found}, not {right:?}"));
            }
        }
    }
    Ok(())
}

/// The single lists, and so many random ones of a seed.
struct Lists {
    cases: Vec<Case>,
    seed: u64,
    tables: u64,
    checker: Checker,
}

impl Lists {
    fn new(seed: u64, tables: u64) -> Lists {
        Lists { cases: cases(), seed, tables, checker: Checker::new() }
    }

    /// The first single list that finds something, with what it finds.
    fn first_case(&mut self, by: By, tested: &Pages) -> Option<(&'static str, String)> {
        let checker = &mut self.checker;
        checker.restart(self.seed, by);
        self.cases.iter().find_map(|case| Some((case.name, checker.case(case, tested).err()?)))
    }

    /// The first random list that does, of the first so many, by its number; what was seen.
    fn first_table(&mut self, by: By, most: u64, tested: &Pages) -> (Option<(u64, String)>, Kinds) {
        let checker = &mut self.checker;
        checker.restart(self.seed, by);
        let mut numbers = 1..=self.tables.min(most);
        let found = numbers.find_map(|table| Some((table, checker.next(tested).err()?)));
        (found, std::mem::take(&mut checker.kinds))
    }

    /// No single list finds anything, and of the first so many random ones none; what was
    /// seen.
    fn compared(&mut self, most: u64, tested: &Pages) -> Result<Kinds, String> {
        if let Some((case, what)) = self.first_case(By::All, tested) {
            return Err(format!("single list \"{case}\": {what}"));
        }
        match self.first_table(By::All, most, tested) {
            (Some((table, what)), _) => Err(format!("list {table} of seed {}: {what}", self.seed)),
            (None, kinds) => Ok(kinds),
        }
    }

    /// A wrong function is found by a single list and by a random one; and the cells alone
    /// show it, by either, just where they are said to.
    fn find(&mut self, name: &str, wrong: &Pages, seen: Seen) -> bool {
        let case = self.first_case(By::All, wrong);
        let table = self.first_table(By::All, u64::MAX, wrong).0;
        let cells = self.first_case(By::Cells, wrong).is_some()
            || self.first_table(By::Cells, FOR_CELLS, wrong).0.is_some();
        let as_said = cells == (seen == Seen::Cells);
        let good = case.is_some() && table.is_some() && as_said;
        let case = case.map_or("no single list".into(), |(case, _)| format!("\"{case}\""));
        let table = table.map_or("no random list".into(), |(table, _)| format!("list {table}"));
        let word = if good { "found" } else { "NOT FOUND" };
        let cells = if as_said { "" } else { ", the cells otherwise than said" };
        println!("{word}: {name} ({case}, {table}{cells})");
        good
    }
}

/// So many random lists are enough for what the cells show.
const FOR_CELLS: u64 = 300;

/// Prints what was seen; fails where something was not.
fn enough(single: usize, kinds: &Kinds) -> bool {
    println!("{single} single lists, {} random ones", kinds.lists);
    println!("{} cells read back by counting lines and by eye", kinds.cells);
    let named: Vec<_> = KINDS.iter().map(|(name, _)| *name).zip(kinds.counts).collect();
    named.iter().for_each(|(name, count)| println!("{name:>40} {count:>8}"));
    let never: Vec<_> = named.iter().filter(|(_, count)| *count == 0).collect();
    if !never.is_empty() {
        println!("FAILED: never came: {never:?}; with few CARDS it may be so");
    }
    never.is_empty()
}

/// The planted faults are found.
fn found(lists: &mut Lists) -> bool {
    let mut missed = 0;
    for (name, fault, seen) in FAULTS {
        missed += usize::from(!lists.find(name, &faults::with(fault), seen));
    }
    for what in BEHIND {
        let died = crate::dies(&["pages-behind", what]);
        println!("{}: {what}", if died { "found" } else { "NOT FOUND" });
        missed += usize::from(!died);
    }
    println!("{} planted faults, {missed} not found", FAULTS.len() + BEHIND.len());
    missed == 0
}

/// What ends the process: a place that is read, and one that is written.
const BEHIND: [&str; 2] = ["a number behind the table read", "a byte behind the buffer written"];

/// With a function that is right but touches what is behind the table or the buffer: the
/// process must not live to the end of it.
pub fn behind(what: &str) -> bool {
    let reads = what == BEHIND[0];
    let touches = move |table: &[u16], out: &mut [u8]| {
        // SAFETY: none; it is what the pages behind table and buffer are to stop.
        unsafe {
            match reads {
                true => drop(table.as_ptr().add(table.len()).read_volatile()),
                false => out.as_mut_ptr().add(out.len()).write_volatile(0),
            }
        }
        faults::pages(table, out, Fault::None)
    };
    Lists::new(1, 0).compared(0, &touches).is_ok()
}

pub fn pages(seed: u64, tables: u64) -> bool {
    println!("seed {seed}, {tables} lists; pages: {}", abi::PAGES);
    let mut lists = Lists::new(seed, tables);
    // What the wrong ones are made from is right.
    if let Err(what) = lists.compared(tables / 10, &faults::with(Fault::None)) {
        println!("FAILED: the writer without a fault, {what}");
        return false;
    }
    match lists.compared(tables, &abi::pages) {
        Ok(kinds) => enough(lists.cases.len(), &kinds) && found(&mut lists),
        Err(what) => {
            println!("FAILED: {what}");
            false
        }
    }
}
