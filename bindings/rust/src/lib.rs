//! The LR parser: runs a parse table over an input of terminals.
//!
//! The parser is the archive `libparser_c.a`; its duties towards the caller (pointers valid for their
//! lengths, areas that do not overlap) are met by the slices of [`parse`] and [`parse_restricted`]. `bindings/c/sidumza.h`
//! describes the table and the areas, and says how long they should be.
//!
//! [`read_table`] reads a table from the text that `maketable` prints; [`entered`] gives the symbols under which its
//! states are entered. With the feature `generator` the module `generator` makes tables; it needs the archive
//! `libgenerator_c.a`. With the feature `merge` the module `merge` makes one card of two; it needs `libmerge_c.a`. With the
//! feature `sample` the module `sample` finds a shortest sentence for a production; it needs `libsample_c.a`, which cannot
//! be made yet. The feature `parser`, on where nothing else is said, is the parser.

#[cfg(any(feature = "generator", feature = "merge", feature = "sample"))]
pub mod generator;
#[cfg(feature = "merge")]
pub mod merge;
#[cfg(feature = "sample")]
pub mod sample;
mod table;
mod words;

pub use table::{entered, read_table, TableFault};

/// Why a call is refused. A refusal changes no area.
#[derive(Clone, Copy, Debug, PartialEq, Eq)]
pub enum Refusal {
    /// 21: the table has under 4 numbers, or fewer than its sizes say.
    TableShort,
    /// 22: a size of the table is 0 or above its limit.
    BadSizes,
    /// 23: a left side that is no nonterminal, or a length above 512.
    BadProduction,
    /// 24: a cell with a value that its column does not have.
    BadCell,
    /// 25: the input is longer than 65,535.
    InputLong,
    /// 26: an input byte that is 0 or no terminal of the table.
    BadTerminal,
    /// 27: the stack area is empty.
    NoStack,
    /// 44: an entering symbol that is at least T + N, or not 0 for state 0, or other than the column of a cell that
    /// names the state. It is tested between 24 and 25.
    BadEntered,
    /// 45: the second area is shorter than the stack area.
    SecondShort,
    /// 50: the word of closed terminals has bit 0 or a bit from T on. Only `parse_restricted` gives it, after all others.
    BadClosed,
}

/// What a parse did until its end.
#[derive(Clone, Copy, Debug, PartialEq, Eq)]
pub struct Counts {
    /// The shifts, reductions and accepts made, at most the step limit.
    pub steps: u64,
    /// The stack places in use: so many places of the stack area hold states.
    pub depth: usize,
    /// The productions listed: so many places of the list area hold productions.
    pub listed: usize,
}

/// The answer to a call.
#[derive(Clone, Copy, Debug, PartialEq, Eq)]
pub enum Answer {
    /// 0: the input is accepted.
    Accepted { counts: Counts },
    /// 21 to 27, 44, 45 or 50.
    Refused { refusal: Refusal },
    /// 31: no action for the terminal at `position`, or it is closed. Bit m of `expected` is set for each terminal m that
    /// can follow the input before it (0: the end) and is not closed, `expected_count` of them.
    NoAction { position: usize, expected: u64, expected_count: u32, counts: Counts },
    /// 32: as many steps made as allowed.
    StepLimit { counts: Counts },
    /// 33: a push with no place left in the stack area.
    StackFull { counts: Counts },
    /// 34: a reduction with the list area full.
    ListFull { counts: Counts },
    /// 35: a reduction that would pop state 0, or whose next state is 0.
    BadGoto { counts: Counts },
    /// 46: the terminal at `position` is wrong, as with 31, but what can follow is not known: a fresh reading
    /// stopped on 32, 33 or 35. A larger step limit and a longer second area help, unless the table is at fault (35).
    ExpectedUnknown { position: usize, counts: Counts },
}

#[cfg(feature = "parser")]
mod archive {
    extern "C" {
        pub fn sidumza_parse(
            table: *const u16,
            table_len: usize,
            input: *const u8,
            input_len: usize,
            stack: *mut u16,
            stack_len: usize,
            list: *mut u16,
            list_len: usize,
            second: *mut u16,
            second_len: usize,
            step_limit: u64,
            out: *mut u64,
        );
        pub fn sidumza_parse_restricted(
            table: *const u16,
            table_len: usize,
            input: *const u8,
            input_len: usize,
            closed: u64,
            stack: *mut u16,
            stack_len: usize,
            list: *mut u16,
            list_len: usize,
            second: *mut u16,
            second_len: usize,
            step_limit: u64,
            out: *mut u64,
        );
        pub fn sidumza_lowest(expected: u64) -> u32;
        pub fn sidumza_terminals(expected: u64, out: *mut u8) -> usize;
    }
}

/// Parses `input` (a byte for each terminal, without the end marker) by `table`.
///
/// After an end the used places of `stack` and `list` hold states and productions; popped places
/// of `stack` are 0, and places never used are unchanged. `second` is the stack of the fresh readings that find what can
/// follow: at least as long as `stack`, else the call is refused, and all zero after every end. `input.len() + 2` places
/// are enough where no production is empty; it is zeroed in every call, so lend no more than the input needs.
///
/// `step_limit` is how many steps may be made, by the reading and by each fresh reading. For the reading
/// `(input.len() + list.len() + 1) as u64` are always enough; with `u64::MAX` [`Answer::StepLimit`] never comes. It is
/// what bounds the time of a call: `bindings/c/sidumza.h` says more, and how long `second` should be where productions
/// are empty ("What to lend").
///
/// To callers of the function without `second` (version 0.2):
/// - Choose a step limit that you would wait for: the list's length no longer bounds the time of a call. This goes for all
///   who passed `u64::MAX` or trusted the list, also with the maker's tables: by a card whose empty productions double a
///   fresh reading may take longer than anyone would wait.
/// - Lend `second`, behind `list`, with `input.len() + 2` places, or as many as `stack` has where that is more: so many are
///   enough where no production is empty. Beside a stack of `input.len() + 1` places one as long as `stack` may be too
///   short: then an input that is wrong at its end gets [`Answer::ExpectedUnknown`].
/// - The expected set is now what truly can follow, and [`Answer::ExpectedUnknown`] may come in place of
///   [`Answer::NoAction`]. Every other answer, the counts, `stack` and `list` are the same; the time of a call is not.
/// - The archive must be the one that belongs to this crate: the linker does not notice one from before 0.3.0, which writes
///   to memory that is not its own.
///
/// To callers of the function whose `step_limit` was a `u32`: a number of 32 bits is passed as `u64::from(..)` and
/// means what it meant, with the same answer and counts; whoever means no limit passes `u64::MAX` and not `u32::MAX`;
/// [`Counts::steps`] is a `u64`, and a place that keeps it in 32 bits must be widened, or the count narrowed by hand
/// where the limits stay below 2^32: no count passes its limit. The compiler finds these places, but for `as` casts,
/// types that are inferred (`"..".parse()`, `to_le_bytes()`) and declarations of `sidumza_parse` by hand.
#[cfg(feature = "parser")]
pub fn parse(
    table: &[u16],
    input: &[u8],
    stack: &mut [u16],
    list: &mut [u16],
    second: &mut [u16],
    step_limit: u64,
) -> Answer {
    let mut out = [0u64; 7];
    // SAFETY: each pointer comes with the length of its slice, `out` has the seven places that are
    // written, and the borrows make the exclusive slices disjoint from all others.
    unsafe {
        archive::sidumza_parse(
            table.as_ptr(),
            table.len(),
            input.as_ptr(),
            input.len(),
            stack.as_mut_ptr(),
            stack.len(),
            list.as_mut_ptr(),
            list.len(),
            second.as_mut_ptr(),
            second.len(),
            step_limit,
            out.as_mut_ptr(),
        );
    }
    answer(out)
}

/// As [`parse`], for a reader to whom some terminals are closed: the choir's reading, beside the publisher's.
///
/// Bit m of `closed` is set for each closed terminal m; a word with bit 0 or with a bit from T on is refused
/// ([`Refusal::BadClosed`]). Where the next terminal is closed the input is wrong ([`Answer::NoAction`], or
/// [`Answer::ExpectedUnknown`]), before any reduction under it and whatever the step limit is. No expected set has a closed
/// terminal; no fresh reading is made for one, so none is the cause of [`Answer::ExpectedUnknown`].
///
/// With word 0 it is [`parse`]. An input without closed terminals ends as with [`parse`], but for the expected set and for
/// an [`Answer::ExpectedUnknown`] that only closed terminals caused. Any other ends at its first closed terminal, unless
/// [`parse`] stops before that: then it ends there as with [`parse`], but for the same. A closed terminal ended the input
/// where `input.get(position).is_some_and(|&m| closed >> m & 1 == 1)`. `bindings/c/sidumza.h` says more.
#[cfg(feature = "parser")]
pub fn parse_restricted(
    table: &[u16],
    input: &[u8],
    closed: u64,
    stack: &mut [u16],
    list: &mut [u16],
    second: &mut [u16],
    step_limit: u64,
) -> Answer {
    let mut out = [0u64; 7];
    // SAFETY: as in `parse`.
    unsafe {
        archive::sidumza_parse_restricted(
            table.as_ptr(),
            table.len(),
            input.as_ptr(),
            input.len(),
            closed,
            stack.as_mut_ptr(),
            stack.len(),
            list.as_mut_ptr(),
            list.len(),
            second.as_mut_ptr(),
            second.len(),
            step_limit,
            out.as_mut_ptr(),
        );
    }
    answer(out)
}

/// The lowest terminal of an expected set, 64 where the set is empty.
#[cfg(feature = "parser")]
pub fn lowest(expected: u64) -> u32 {
    // SAFETY: the function takes and gives a number, and asks nothing of it.
    unsafe { archive::sidumza_lowest(expected) }
}

/// The terminals of an expected set, ascending.
#[cfg(feature = "parser")]
pub fn terminals(expected: u64) -> impl Iterator<Item = u32> {
    let mut out = [0u8; 64];
    // SAFETY: `out` has the 64 places that are written.
    let many = unsafe { archive::sidumza_terminals(expected, out.as_mut_ptr()) };
    out.into_iter().take(many).map(u32::from)
}

/// The seven numbers of the C call as an answer.
#[cfg(feature = "parser")]
fn answer(out: [u64; 7]) -> Answer {
    let counts = Counts { steps: out[1], depth: out[2] as usize, listed: out[3] as usize };
    let refused = |refusal| Answer::Refused { refusal };
    match out[0] {
        0 => Answer::Accepted { counts },
        21 => refused(Refusal::TableShort),
        22 => refused(Refusal::BadSizes),
        23 => refused(Refusal::BadProduction),
        24 => refused(Refusal::BadCell),
        25 => refused(Refusal::InputLong),
        26 => refused(Refusal::BadTerminal),
        27 => refused(Refusal::NoStack),
        44 => refused(Refusal::BadEntered),
        45 => refused(Refusal::SecondShort),
        50 => refused(Refusal::BadClosed),
        31 => Answer::NoAction { position: out[4] as usize, expected: out[5], expected_count: out[6] as u32, counts },
        32 => Answer::StepLimit { counts },
        33 => Answer::StackFull { counts },
        34 => Answer::ListFull { counts },
        35 => Answer::BadGoto { counts },
        46 => Answer::ExpectedUnknown { position: out[4] as usize, counts },
        n => unknown(n),
    }
}

/// The end of the program for an answer that the archives of this crate do not give.
#[cfg(any(feature = "parser", feature = "generator", feature = "merge", feature = "sample"))]
#[track_caller]
fn unknown(number: u64) -> ! {
    unreachable!("the archive answers {number}: it is not the one that this crate was written for")
}
