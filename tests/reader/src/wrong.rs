// A second reader, as one loop over the areas, with a switch for a deliberate fault. Without a fault
// it is right; each fault must be found by the test. Its fresh readings are in `offers`, what it makes of closed terminals
// in `closed`.
use crate::{closed, offers};

pub const FAULTS: [&str; 166] = [
    "none",
    "21: table of 4 numbers refused",
    "21 before 22",
    "21: numbers behind the table refused",
    "21: one number too few passes",
    "21: entering symbols not counted",
    "22: 256 states refused",
    "22: 65 terminals pass",
    "22: 61 nonterminals pass",
    "22: 129 productions pass",
    "22: 0 states pass as 21",
    "23: not checked",
    "23: length 512 refused",
    "23: left side may be a terminal",
    "24: not checked",
    "24: shift in column 0 passes",
    "24: 4096 passes in every terminal's column",
    "24: 1024 + P passes",
    "24: state Q passes for nonterminals",
    "24 before 23",
    "44: not checked",
    "44: T + N passes",
    "44: only states that a cell names below T + N",
    "44: any symbol passes for state 0",
    "44: only terminals' columns checked",
    "44: only nonterminals' columns checked",
    "44: only the first cell that names a state checked",
    "44: row 0 not checked",
    "44: last row not checked",
    "44: last column not checked",
    "44: last state not checked",
    "44: compared in 8 bits",
    "44: cell 0 of a nonterminal names state 0",
    "44: cell 0 of a terminal names state 0",
    "44: states that no cell names refused",
    "44: states that no cell names must have 0",
    "44: answered as 24",
    "44: refusal writes the stack",
    "44 before 23",
    "44 before 24",
    "44 after 25",
    "44 after 26",
    "44 after 27",
    "entering symbols behind the cells",
    "entering symbols before the lengths",
    "cells where entering symbols are",
    "tables without entering symbols known by their length",
    "25: 65536 terminals pass",
    "26: terminal 0 passes",
    "26: terminal T passes",
    "27 before 26",
    "27: refusal writes the list",
    "27: refusal writes the second area",
    "45: not checked",
    "45: one place too few passes",
    "45: as long as the stack refused",
    "45: only an empty second area refused",
    "45: lengths compared in 16 bits",
    "45: answered as 27",
    "45: refusal writes the second area",
    "45: refusal writes the stack",
    "45 before 24",
    "45 before 44",
    "45 before 25",
    "45 before 26",
    "31 after 32",
    "31: position one too far at the end",
    "31: expected word of 32 bits",
    "31: end marker not counted",
    "31: top row offered",
    "31: row before the reductions offered",
    "31: end marker offered for any action",
    "31: end marker never offered",
    "31: terminal 1 never offered",
    "31: terminal T - 1 never offered",
    "31: terminal 63 never offered",
    "31: only the lowest offered",
    "31: steps with those of the fresh readings",
    "31: steps of a fresh reading",
    "31: position one too far",
    "32: one step too many",
    "32: accept takes no step",
    "32: limit modulo 2^32",
    "32: limit modulo 2^48",
    "32: limit's highest bit lost",
    "32: limit's upper half alone",
    "32: limit's upper half where it is not 0",
    "32: limit's halves exchanged",
    "32: limit as a signed number",
    "32: limit as a signed number of 32 bits",
    "32: limit from 2^32 on allows none",
    "32: limit 2^64 - 1 allows none",
    "33 before 35",
    "33: one place kept free",
    "33: full stack stops every reduction",
    "34 after 35",
    "34: one place too early",
    "35: state 0 may be popped",
    "35: next state 0 pushed",
    "46: as 31 with what was found",
    "46: as 31 with nothing",
    "46: only where nothing was found",
    "46: not for the end marker",
    "46: only for the end marker",
    "46: not for terminal T - 1",
    "46: answered with the number that the fresh reading stopped on",
    "46: position left out",
    "46: position one too far",
    "46: steps left out",
    "46: steps with those of the fresh readings",
    "46: steps of the fresh reading that stopped",
    "46: depth of the fresh reading that stopped",
    "46: expected set of what was found",
    "46: size of what was found",
    "46: list cleared",
    "46: stack of the fresh reading that stopped",
    "fresh: behind the terminal met",
    "fresh: over the whole input",
    "fresh: from the stack as it is",
    "fresh: on behind the terminal",
    "fresh: only what ends a sentence",
    "fresh: steps that are left",
    "fresh: one step fewer",
    "fresh: one step more",
    "fresh: limit modulo 2^32",
    "fresh: limit as a signed number",
    "fresh: at most 65535 steps",
    "fresh: as many places as the stack",
    "fresh: one place fewer",
    "fresh: one place more",
    "fresh: at most 65535 places",
    "fresh: 34 at the list's length",
    "fresh: wrong at the list's length",
    "fresh: 32 is wrong",
    "fresh: 33 is wrong",
    "fresh: 35 is wrong",
    "fresh: 35 for the next state is wrong",
    "fresh: 32 is right",
    "fresh: acceptance takes no step",
    "fresh: last shift takes no step",
    "fresh: last shift takes no place",
    "fresh: state 0 may be popped",
    "fresh: in the stack area",
    "fresh: list written",
    "second area left",
    "second area left after 0",
    "second area left after 31",
    "second area left after 32",
    "second area left after 33",
    "second area left after 34",
    "second area left after 35",
    "second area left after 46",
    "second area left but after 31",
    "second area: last place left",
    "second area: zero as far as the stack is long",
    "second area: zero where it was used",
    "second area: state 0 may stand in place 0",
    "popped places left",
    "places above the stack cleared",
    "place 0 not written",
    "list cleared behind",
    "production + 1024 listed",
    "listed counted in 16 bits",
    "depth counted in 16 bits",
    "steps counted in 16 bits",
    "steps with the limit's upper half",
];

// Faults of the choir's call alone.
pub const CLOSED: [&str; 62] = [
    "50: not checked",
    "50: bit 0 passes",
    "50: bit T passes",
    "50: bits above T pass",
    "50: bits from T on pass",
    "50: terminal T - 1 refused",
    "50: shift by 64 with 64 terminals",
    "50: word 0 refused",
    "50: lower half of the word checked",
    "50: answered as 26",
    "50: answered as 45",
    "50: refusal writes the stack",
    "50: refusal writes the list",
    "50: refusal writes the second area",
    "50 before 24",
    "50 before 44",
    "50 before 25",
    "50 before 26",
    "50 before 27",
    "50 before 45",
    "closed: not tested",
    "closed: tested at a shift alone",
    "closed: after 32",
    "closed: after 33",
    "closed: after 34",
    "closed: after 35",
    "closed: first terminal of the input not tested",
    "closed: last terminal of the input not tested",
    "closed: the last one taken for the first",
    "closed: the last terminal taken for closed",
    "closed: the end taken for closed",
    "closed: taken for the end",
    "closed: terminal 63 not tested",
    "closed: terminals from 32 on not tested",
    "closed: terminals modulo 32",
    "closed: bit m for terminal m + 1",
    "closed: bit m for terminal m - 1",
    "closed: bits of the open ones",
    "closed: answered as 26",
    "closed: answered as 35",
    "closed: position one too far",
    "closed: position of one behind a wrong terminal",
    "closed: position left out",
    "closed: shifted",
    "closed: a step counted",
    "closed: in the expected set",
    "closed: in the expected set at a closed terminal",
    "closed: in the expected set elsewhere",
    "closed: the one met in the expected set",
    "closed: counted in the expected set's size",
    "closed: makes 46",
    "closed: makes 46 at a closed terminal",
    "closed: makes 46 elsewhere",
    "closed: no 46 at a closed terminal",
    "closed: no 46 where terminals are closed",
    "closed: nothing expected at a closed terminal",
    "closed: end marker not expected",
    "closed: end marker not expected at a closed terminal",
    "closed: row offered at a closed terminal",
    "closed: second area left at a closed terminal",
    "closed: list cleared at a closed terminal",
    "closed: stack cleared at a closed terminal",
];

// A table with a switch for faults: where its parts begin.
pub struct Table<'a> {
    pub fault: &'static str,
    numbers: &'a [u16],
    lengths: usize,
    entered: usize,
    cells: usize,
    // Taken for a table without entering symbols.
    old: bool,
}

impl<'a> Table<'a> {
    fn new(fault: &'static str, numbers: &'a [u16]) -> Table<'a> {
        let [q, m, n, p] = [0, 1, 2, 3].map(|i| numbers[i] as usize);
        let old = fault == "tables without entering symbols known by their length"
            && numbers.len() == 4 + 2 * p + q * (m + n);
        let (lengths, entered, cells) = match fault {
            "entering symbols behind the cells" => (4 + p, 4 + 2 * p + q * (m + n), 4 + 2 * p),
            "entering symbols before the lengths" => (4 + p + q, 4 + p, 4 + 2 * p + q),
            "cells where entering symbols are" => (4 + p, 4 + 2 * p, 4 + 2 * p),
            _ if old => (4 + p, 4 + 2 * p, 4 + 2 * p),
            _ => (4 + p, 4 + 2 * p, 4 + 2 * p + q),
        };
        Table { fault, numbers, lengths, entered, cells, old }
    }

    pub fn is(&self, name: &str) -> bool {
        self.fault == name
    }

    pub fn more(&self, name: &str) -> usize {
        self.is(name) as usize
    }

    pub fn at(&self, i: usize) -> usize {
        self.numbers.get(i).copied().unwrap_or(0) as usize
    }

    // Q, T, T + N and P.
    fn sizes(&self) -> [usize; 4] {
        [self.at(0), self.at(1), self.at(1) + self.at(2), self.at(3)]
    }

    pub fn cell(&self, s: usize, x: usize) -> usize {
        self.at(self.cells + s * (self.at(1) + self.at(2)) + x)
    }

    pub fn left(&self, r: usize) -> usize {
        self.at(4 + r)
    }

    pub fn length(&self, r: usize) -> usize {
        self.at(self.lengths + r)
    }

    // 21 and 22.
    fn bad_sizes(&self) -> u64 {
        let [q, m, w, p] = self.sizes();
        let (n, len) = (w - m, self.numbers.len());
        let counted = !self.old && !self.is("21: entering symbols not counted");
        let size = 4 + 2 * p + q * counted as usize + q * w;
        let short = len < size && !(self.is("21: one number too few passes") && len + 1 == size);
        if self.is("21 before 22") && len < size || self.is("22: 0 states pass as 21") && q == 0 {
            return 21;
        }
        if q == 0
            || q > 256 - self.more("22: 256 states refused")
            || m == 0
            || m > 64 + self.more("22: 65 terminals pass")
            || n == 0
            || n > 60 + self.more("22: 61 nonterminals pass")
            || p == 0
            || p > 128 + self.more("22: 129 productions pass")
        {
            return 22;
        }
        let long = self.is("21: numbers behind the table refused") && len > size;
        21 * (short || long) as u64
    }

    fn bad_production(&self) -> bool {
        let [_, m, w, p] = self.sizes();
        let longest = 512 - self.more("23: length 512 refused");
        let lowest = if self.is("23: left side may be a terminal") { 1 } else { m };
        let bad = |r| self.left(r) < lowest || self.left(r) >= w || self.length(r) > longest;
        !self.is("23: not checked") && (0..p).any(bad)
    }

    fn bad_cell(&self) -> bool {
        let [q, m, w, p] = self.sizes();
        let mut bad = false;
        for s in 0..q {
            for x in 0..w {
                let v = self.cell(s, x);
                let reduces = v >= 1024 && v < 1024 + p + self.more("24: 1024 + P passes");
                bad |= !if x >= m {
                    v < q + self.more("24: state Q passes for nonterminals")
                } else if x == 0 {
                    v == 0 || v == 4096 || reduces || self.is("24: shift in column 0 passes") && v < q
                } else {
                    v < q || reduces || self.is("24: 4096 passes in every terminal's column") && v == 4096
                };
            }
        }
        bad && !self.is("24: not checked")
    }

    // Whether the column of a cell is not the entering symbol of the state that it names; marks the state.
    fn bad_column(&self, s: usize, x: usize, named: &mut [bool]) -> bool {
        let [q, m, w, _] = self.sizes();
        let v = self.cell(s, x);
        let zero =
            if x < m { "44: cell 0 of a terminal names state 0" } else { "44: cell 0 of a nonterminal names state 0" };
        if v >= q || v == 0 && !self.is(zero) {
            return false;
        }
        let before = std::mem::replace(&mut named[v], true);
        let skipped = before && self.is("44: only the first cell that names a state checked")
            || x >= m && self.is("44: only terminals' columns checked")
            || x < m && self.is("44: only nonterminals' columns checked")
            || s == 0 && self.is("44: row 0 not checked")
            || s == q - 1 && self.is("44: last row not checked")
            || x == w - 1 && self.is("44: last column not checked")
            || v == q - 1 && self.is("44: last state not checked");
        self.symbol(v) != x && !skipped
    }

    fn symbol(&self, state: usize) -> usize {
        self.at(self.entered + state) & if self.is("44: compared in 8 bits") { 0xff } else { 0xffff }
    }

    fn bad_entered(&self) -> bool {
        let [q, _, w, _] = self.sizes();
        let mut named = vec![false; q];
        let mut bad = false;
        for s in 0..q {
            for x in 0..w {
                bad |= self.bad_column(s, x, &mut named);
            }
        }
        for s in 0..q {
            let symbol = self.symbol(s);
            bad |= match (s, named[s]) {
                (0, _) if self.is("44: any symbol passes for state 0") => symbol >= w,
                (0, _) => symbol != 0,
                (_, false) if self.is("44: only states that a cell names below T + N") => false,
                (_, false) if self.is("44: states that no cell names refused") => true,
                (_, false) if self.is("44: states that no cell names must have 0") => symbol != 0,
                _ => {
                    symbol >= w + self.more("44: T + N passes")
                        && !(s == q - 1 && self.is("44: last state not checked"))
                }
            };
        }
        bad && !self.old && !self.is("44: not checked")
    }

    // The refusals behind 21 and 22, in order.
    fn order(&self) -> [u64; 8] {
        match self.fault {
            "24 before 23" => [24, 23, 44, 25, 26, 27, 45, 50],
            "44 before 23" => [44, 23, 24, 25, 26, 27, 45, 50],
            "44 before 24" => [23, 44, 24, 25, 26, 27, 45, 50],
            "44 after 25" => [23, 24, 25, 44, 26, 27, 45, 50],
            "44 after 26" => [23, 24, 25, 26, 44, 27, 45, 50],
            "44 after 27" => [23, 24, 25, 26, 27, 44, 45, 50],
            "27 before 26" => [23, 24, 44, 25, 27, 26, 45, 50],
            "45 before 24" => [23, 45, 24, 44, 25, 26, 27, 50],
            "45 before 44" => [23, 24, 45, 44, 25, 26, 27, 50],
            "45 before 25" => [23, 24, 44, 45, 25, 26, 27, 50],
            "45 before 26" => [23, 24, 44, 25, 45, 26, 27, 50],
            "50 before 24" => [23, 50, 24, 44, 25, 26, 27, 45],
            "50 before 44" => [23, 24, 50, 44, 25, 26, 27, 45],
            "50 before 25" => [23, 24, 44, 50, 25, 26, 27, 45],
            "50 before 26" => [23, 24, 44, 25, 50, 26, 27, 45],
            "50 before 27" => [23, 24, 44, 25, 26, 50, 27, 45],
            "50 before 45" => [23, 24, 44, 25, 26, 27, 50, 45],
            _ => [23, 24, 44, 25, 26, 27, 45, 50],
        }
    }

    // Whether the second area is too short.
    fn second_short(&self, stack: usize, second: usize) -> bool {
        match self.fault {
            "45: not checked" => false,
            "45: one place too few passes" => second + 1 < stack,
            "45: as long as the stack refused" => second <= stack,
            "45: only an empty second area refused" => second == 0,
            "45: lengths compared in 16 bits" => (second as u16) < stack as u16,
            _ => second < stack,
        }
    }

    // The refusal of a call, 0 where there is none.
    fn refusal(&self, c: &Call) -> u64 {
        let sizes = self.bad_sizes();
        if sizes != 0 {
            return sizes;
        }
        let most = self.at(1) + self.more("26: terminal T passes");
        let zero = !self.is("26: terminal 0 passes");
        let applies = |&number: &u64| match number {
            23 => self.bad_production(),
            24 => self.bad_cell(),
            44 => self.bad_entered(),
            25 => c.input.len() > 65535 + self.more("25: 65536 terminals pass"),
            26 => c.input.iter().any(|&b| b == 0 && zero || b as usize >= most),
            27 => c.stack.is_empty(),
            45 => self.second_short(c.stack.len(), c.second.len()),
            _ => c.closed.is_some_and(|word| closed::bad(self.fault, word, self.at(1))),
        };
        self.order().into_iter().find(applies).unwrap_or(0)
    }
}

// How many steps a limit allows.
fn allowed(fault: &str, limit: u64) -> u64 {
    let (high, low) = (limit >> 32, limit & u32::MAX as u64);
    match fault {
        "32: one step too many" => limit.saturating_add(1),
        "32: limit modulo 2^32" => low,
        "32: limit modulo 2^48" => limit % (1 << 48),
        "32: limit's highest bit lost" => limit % (1 << 63),
        "32: limit's upper half alone" => high,
        "32: limit's upper half where it is not 0" if high != 0 => high,
        "32: limit's halves exchanged" => limit.rotate_left(32),
        "32: limit as a signed number" => (limit as i64).max(0) as u64,
        "32: limit as a signed number of 32 bits" => (limit as i32).max(0) as u64,
        "32: limit from 2^32 on allows none" if high != 0 => 0,
        "32: limit 2^64 - 1 allows none" if limit == u64::MAX => 0,
        _ => limit,
    }
}

// What a call is handed.
pub struct Call<'a> {
    pub table: &'a [u16],
    pub input: &'a [u8],
    pub stack: &'a mut [u16],
    pub list: &'a mut [u16],
    pub second: &'a mut [u16],
    pub limit: u64,
    // The word of the choir's call; the publisher's has none.
    pub closed: Option<u64>,
}

// Where a reading stands.
pub struct Spot {
    pub depth: usize,
    pub listed: usize,
    pub pos: usize,
    pub steps: u64,
    pub top: usize,
    // It stopped since the next terminal is closed.
    pub barred: bool,
}

fn refused(table: &Table, refusal: u64, c: &mut Call) -> [u64; 7] {
    match (refusal, table.fault) {
        (27, "27: refusal writes the list") => c.list.fill(0),
        (27, "27: refusal writes the second area") => c.second.fill(0),
        (44, "44: refusal writes the stack") => c.stack.fill(0),
        (45, "45: refusal writes the second area") => c.second.fill(0),
        (45, "45: refusal writes the stack") => c.stack[0] = 0,
        (50, "50: refusal writes the stack") => c.stack[0] = 0,
        (50, "50: refusal writes the list") => c.list.fill(0),
        (50, "50: refusal writes the second area") => c.second.fill(0),
        _ => {}
    }
    let told = match (refusal, table.fault) {
        (44, "44: answered as 24") => 24,
        (45, "45: answered as 27") => 27,
        (50, "50: answered as 26") => 26,
        (50, "50: answered as 45") => 45,
        _ => refusal,
    };
    [told, 0, 0, 0, 0, 0, 0]
}

// A reduction, or the end before it.
fn reduce(table: &Table, c: &mut Call, s: &mut Spot, r: usize, room: usize) -> Result<(), u64> {
    let mut n = table.length(r);
    let full = s.listed >= c.list.len() - table.more("34: one place too early").min(c.list.len());
    if full && !table.is("34 after 35") {
        return Err(34);
    }
    if table.is("33 before 35") && n == 0 && s.depth >= room
        || table.is("33: full stack stops every reduction") && s.depth >= room
    {
        return Err(33);
    }
    if n >= s.depth {
        if !table.is("35: state 0 may be popped") || n > s.depth {
            return Err(35);
        }
        n = s.depth - 1;
    }
    let next = table.cell(c.stack[s.depth - n - 1] as usize, table.left(r));
    if next == 0 && !table.is("35: next state 0 pushed") {
        return Err(35);
    }
    if full {
        return Err(34);
    }
    if s.depth - n >= room {
        return Err(33);
    }
    if !table.is("popped places left") {
        c.stack[s.depth - n..s.depth].fill(0);
    }
    s.depth -= n;
    c.stack[s.depth] = next as u16;
    s.depth += 1;
    s.top = next;
    c.list[s.listed] = (r + 1024 * table.more("production + 1024 listed")) as u16;
    s.listed += 1;
    Ok(())
}

// A step, or the end before it; 0 with the acceptance.
fn step(table: &Table, c: &mut Call, s: &mut Spot, allowed: u64) -> Result<(), u64> {
    let room = c.stack.len() - table.more("33: one place kept free").min(c.stack.len() - 1);
    let a = table.cell(s.top, closed::next(table, c, s));
    let out_of_steps = s.steps == allowed;
    s.barred = closed::bars(table, c, s, a, out_of_steps);
    if s.barred {
        return Err(31);
    }
    if table.is("31 after 32") && out_of_steps {
        return Err(32);
    }
    if a == 0 {
        return Err(31);
    }
    if out_of_steps && !(a == 4096 && table.is("32: accept takes no step")) {
        return Err(32);
    }
    if a == 4096 {
        s.steps += !table.is("32: accept takes no step") as u64;
        return Err(0);
    }
    if a >= 1024 {
        reduce(table, c, s, a - 1024, room)?;
    } else {
        if s.depth >= room {
            return Err(33);
        }
        c.stack[s.depth] = a as u16;
        s.depth += 1;
        s.pos += 1;
        s.top = a;
    }
    s.steps += 1;
    Ok(())
}

// The seven numbers of an end, but for what 31 and 46 add.
fn numbers(table: &Table, end: u64, s: &Spot, limit: u64) -> [u64; 7] {
    let cut = |n: usize, name: &str| if table.is(name) { n as u16 as u64 } else { n as u64 };
    let mut steps = s.steps;
    if table.is("steps counted in 16 bits") {
        steps %= 1 << 16;
    }
    if table.is("steps with the limit's upper half") {
        steps |= limit >> 32 << 32;
    }
    let depth = cut(s.depth, "depth counted in 16 bits");
    [end, steps, depth, cut(s.listed, "listed counted in 16 bits"), 0, 0, 0]
}

pub fn parse(fault: &'static str, mut c: Call) -> [u64; 7] {
    if c.table.len() < 4 || fault == "21: table of 4 numbers refused" && c.table.len() == 4 {
        return [21, 0, 0, 0, 0, 0, 0];
    }
    let table = Table::new(fault, c.table);
    let refusal = table.refusal(&c);
    if refusal != 0 {
        return refused(&table, refusal, &mut c);
    }
    if !table.is("place 0 not written") {
        c.stack[0] = 0;
    }
    let mut s = Spot { depth: 1, listed: 0, pos: 0, steps: 0, top: 0, barred: false };
    let allowed = allowed(fault, c.limit);
    let end = loop {
        if let Err(end) = step(&table, &mut c, &mut s, allowed) {
            break end;
        }
    };
    if table.is("places above the stack cleared") {
        c.stack[s.depth..].fill(0);
    }
    if table.is("list cleared behind") {
        c.list[s.listed..].fill(0);
    }
    let mut out = numbers(&table, end, &s, c.limit);
    let used = if end == 31 { offers::answer(&table, &mut c, &s, &mut out) } else { 0 };
    if !(s.barred && table.is("closed: second area left at a closed terminal")) {
        offers::leave(&table, &mut c, used, out[0]);
    }
    if end == 31 {
        closed::answer(&table, &mut c, &s, &mut out);
    }
    out
}
