//! The C functions under test. Where an archive is not linked, the reference's
//! second way, its parser, lengths by rounds, pages by lines, cards merged by arithmetic and
//! samples by rounds stand in.

use reference::parser;

#[cfg(not(lengths_archive))]
use crate::lengths::faults;
#[cfg(not(merge_archive))]
use crate::merges::faults as by_arithmetic;
#[cfg(not(pages_archive))]
use crate::pages::faults as lines;
#[cfg(not(sample_archive))]
use crate::samples::faults as by_rounds;

#[cfg(generator_archive)]
pub const GENERATOR: &str = "archive";
#[cfg(not(generator_archive))]
pub const GENERATOR: &str = "stand-in";

#[cfg(parser_archive)]
pub const PARSER: &str = "archive";
#[cfg(not(parser_archive))]
pub const PARSER: &str = "stand-in";

#[cfg(lengths_archive)]
pub const LENGTHS: &str = "archive";
#[cfg(not(lengths_archive))]
pub const LENGTHS: &str = "stand-in";

#[cfg(pages_archive)]
pub const PAGES: &str = "archive";
#[cfg(not(pages_archive))]
pub const PAGES: &str = "stand-in";

#[cfg(merge_archive)]
pub const MERGE: &str = "archive";
#[cfg(not(merge_archive))]
pub const MERGE: &str = "stand-in";

#[cfg(sample_archive)]
pub const SAMPLE: &str = "archive";
#[cfg(not(sample_archive))]
pub const SAMPLE: &str = "stand-in";

#[cfg(generator_archive)]
extern "C" {
    fn sidumza_generate(
        card: *const u16,
        card_len: usize,
        table: *mut u16,
        table_len: usize,
        work: *mut u64,
        work_len: usize,
        work2: *mut u32,
        work2_len: usize,
        out: *mut u64,
    );
}

#[cfg(not(generator_archive))]
#[allow(clippy::too_many_arguments)]
unsafe extern "C" fn sidumza_generate(
    card: *const u16,
    card_len: usize,
    table: *mut u16,
    table_len: usize,
    work: *mut u64,
    work_len: usize,
    work2: *mut u32,
    work2_len: usize,
    out: *mut u64,
) {
    use reference::answer::{answer, generate, Method};
    use std::slice::{from_raw_parts, from_raw_parts_mut};
    let numbers = generate(
        from_raw_parts(card, card_len),
        from_raw_parts_mut(table, table_len),
        from_raw_parts_mut(work, work_len),
        from_raw_parts_mut(work2, work2_len),
        |card| answer(card, Method::Spreading).expect("this way never gives up"),
    );
    from_raw_parts_mut(out, 5).copy_from_slice(&numbers);
}

#[cfg(parser_archive)]
extern "C" {
    fn sidumza_parse(
        table: *const u16,
        table_len: usize,
        input: *const u8,
        input_len: usize,
        stack: *mut u16,
        stack_len: usize,
        list: *mut u16,
        list_len: usize,
        second: *mut u16,
        second_len: usize,
        step_limit: u64,
        out: *mut u64,
    );
    fn sidumza_parse_restricted(
        table: *const u16,
        table_len: usize,
        input: *const u8,
        input_len: usize,
        closed: u64,
        stack: *mut u16,
        stack_len: usize,
        list: *mut u16,
        list_len: usize,
        second: *mut u16,
        second_len: usize,
        step_limit: u64,
        out: *mut u64,
    );
}

#[cfg(lengths_archive)]
extern "C" {
    fn sidumza_shortest(card: *const u16, card_len: usize, out: *mut u16) -> u16;
}

#[cfg(pages_archive)]
extern "C" {
    fn sidumza_pages(table: *const u16, table_len: usize, out: *mut u8, out_len: usize) -> usize;
}

#[cfg(merge_archive)]
extern "C" {
    fn sidumza_merge(
        first: *const u16,
        first_len: usize,
        second: *const u16,
        second_len: usize,
        merged: *mut u16,
        merged_len: usize,
        out: *mut u64,
    );
}

#[cfg(sample_archive)]
extern "C" {
    fn sidumza_sample(
        card: *const u16,
        card_len: usize,
        production: u64,
        area: *mut u8,
        area_len: usize,
        out: *mut u64,
    );
}

/// Makes a table: card, table area, both work areas.
pub type Generator = dyn Fn(&[u16], &mut [u16], &mut [u64], &mut [u32]) -> [u64; 5];

/// Reads an input: table, input, stack area, list area, second area, step limit.
pub type Parser = dyn Fn(&[u16], &[u8], &mut [u16], &mut [u16], &mut [u16], u64) -> [u64; 7];

/// The same with a word of closed terminals behind the input.
pub type Choir = dyn Fn(&[u16], &[u8], u64, &mut [u16], &mut [u16], &mut [u16], u64) -> [u64; 7];

/// Gives the lengths of a card's nonterminals, or the number of its fault of form.
pub type Shortest = dyn Fn(&[u16], &mut [u16; 60]) -> u16;

/// Writes the pages of a table into a buffer; gives how many bytes are used.
pub type Pages = dyn Fn(&[u16], &mut [u8]) -> usize;

/// Merges two cards in an area: first, second, area; what is answered goes into the last.
pub type Merge = dyn Fn(&[u16], &[u16], &mut [u16], &mut [u64; 3]);

/// Finds a sample: card, production, area; what is answered goes into the last.
pub type Sample = dyn Fn(&[u16], u64, &mut [u8], &mut [u64; 2]);

/// Both calls of a parser: the publisher's and the choir's.
#[derive(Clone, Copy)]
pub struct Calls<'a> {
    pub publisher: &'a Parser,
    pub choir: &'a Choir,
}

/// The reference's calls.
pub const RIGHT: Calls = Calls {
    publisher: &|t, i, s, l, v, limit| parser::parse(t, i, s, l, v, limit).out(),
    choir: &|t, i, closed, s, l, v, limit| {
        parser::parse_restricted(t, i, closed, s, l, v, limit).out()
    },
};

/// The calls under test.
#[cfg(parser_archive)]
pub const TESTED: Calls = Calls { publisher: &parse, choir: &parse_restricted };
#[cfg(not(parser_archive))]
pub const TESTED: Calls = RIGHT;

pub fn generate(card: &[u16], table: &mut [u16], work: &mut [u64], work2: &mut [u32]) -> [u64; 5] {
    // What is not written must not look like an answer.
    let mut out = [99; 5];
    unsafe {
        sidumza_generate(
            card.as_ptr(),
            card.len(),
            table.as_mut_ptr(),
            table.len(),
            work.as_mut_ptr(),
            work.len(),
            work2.as_mut_ptr(),
            work2.len(),
            out.as_mut_ptr(),
        );
    }
    out
}

#[cfg(parser_archive)]
fn parse(
    table: &[u16],
    input: &[u8],
    stack: &mut [u16],
    list: &mut [u16],
    second: &mut [u16],
    step_limit: u64,
) -> [u64; 7] {
    let mut out = [99; 7];
    unsafe {
        sidumza_parse(
            table.as_ptr(),
            table.len(),
            input.as_ptr(),
            input.len(),
            stack.as_mut_ptr(),
            stack.len(),
            list.as_mut_ptr(),
            list.len(),
            second.as_mut_ptr(),
            second.len(),
            step_limit,
            out.as_mut_ptr(),
        );
    }
    out
}

#[cfg(parser_archive)]
fn parse_restricted(
    table: &[u16],
    input: &[u8],
    closed: u64,
    stack: &mut [u16],
    list: &mut [u16],
    second: &mut [u16],
    step_limit: u64,
) -> [u64; 7] {
    let mut out = [99; 7];
    unsafe {
        sidumza_parse_restricted(
            table.as_ptr(),
            table.len(),
            input.as_ptr(),
            input.len(),
            closed,
            stack.as_mut_ptr(),
            stack.len(),
            list.as_mut_ptr(),
            list.len(),
            second.as_mut_ptr(),
            second.len(),
            step_limit,
            out.as_mut_ptr(),
        );
    }
    out
}

#[cfg(lengths_archive)]
pub fn shortest(card: &[u16], out: &mut [u16; 60]) -> u16 {
    unsafe { sidumza_shortest(card.as_ptr(), card.len(), out.as_mut_ptr()) }
}

#[cfg(not(lengths_archive))]
pub fn shortest(card: &[u16], out: &mut [u16; 60]) -> u16 {
    faults::shortest(card, out, faults::Fault::None)
}

#[cfg(pages_archive)]
pub fn pages(table: &[u16], out: &mut [u8]) -> usize {
    unsafe { sidumza_pages(table.as_ptr(), table.len(), out.as_mut_ptr(), out.len()) }
}

#[cfg(not(pages_archive))]
pub fn pages(table: &[u16], out: &mut [u8]) -> usize {
    lines::pages(table, out, lines::Fault::None)
}

#[cfg(merge_archive)]
pub fn merge(first: &[u16], second: &[u16], merged: &mut [u16], out: &mut [u64; 3]) {
    unsafe {
        sidumza_merge(
            first.as_ptr(),
            first.len(),
            second.as_ptr(),
            second.len(),
            merged.as_mut_ptr(),
            merged.len(),
            out.as_mut_ptr(),
        );
    }
}

#[cfg(not(merge_archive))]
pub fn merge(first: &[u16], second: &[u16], merged: &mut [u16], out: &mut [u64; 3]) {
    by_arithmetic::merge(first, second, merged, out, by_arithmetic::Fault::None)
}

#[cfg(sample_archive)]
pub fn sample(card: &[u16], production: u64, area: &mut [u8], out: &mut [u64; 2]) {
    let (from, length) = (area.as_mut_ptr(), area.len());
    unsafe {
        sidumza_sample(card.as_ptr(), card.len(), production, from, length, out.as_mut_ptr());
    }
}

#[cfg(not(sample_archive))]
pub fn sample(card: &[u16], production: u64, area: &mut [u8], out: &mut [u64; 2]) {
    by_rounds::sample(card, production, area, out, by_rounds::Fault::None)
}
