//! The parser of the paper, plainly: refusals 21 to 27, 44 and 45, then the machine,
//! and behind its 31 a fresh reading for each terminal. `parse` is the publisher's,
//! `parse_restricted` the choir's, with a word of closed terminals and refusal 50.

/// What a parse answers; `out` has the order of the C boundary.
#[derive(Clone, Copy, Debug, Default, PartialEq, Eq)]
pub struct Outcome {
    pub number: u64,
    pub steps: u64,
    pub depth: u64,
    pub listed: u64,
    pub position: u64,
    pub expected: u64,
    pub expected_count: u64,
}

impl Outcome {
    pub fn out(&self) -> [u64; 7] {
        [
            self.number,
            self.steps,
            self.depth,
            self.listed,
            self.position,
            self.expected,
            self.expected_count,
        ]
    }

    pub fn from_out(out: [u64; 7]) -> Outcome {
        let [number, steps, depth, listed, position, expected, expected_count] = out;
        Outcome { number, steps, depth, listed, position, expected, expected_count }
    }
}

/// A table cut into its parts.
struct Table<'a> {
    terminals: usize,
    lefts: &'a [u16],
    lengths: &'a [u16],
    rows: Vec<&'a [u16]>,
}

/// Whether a cell has a value of its column, in a table of `q` states, `t` terminals and
/// `p` productions.
fn is_good(column: usize, cell: usize, [q, t, p]: [usize; 3]) -> bool {
    let state = (1..q).contains(&cell);
    let reduce = (1024..1024 + p).contains(&cell);
    match column {
        _ if cell == 0 => true,
        0 => reduce || cell == 4096,
        _ if column < t => state || reduce,
        _ => state,
    }
}

/// Refusals 21 to 24, then 44.
fn table_of(numbers: &[u16]) -> Result<Table<'_>, u64> {
    if numbers.len() < 4 {
        return Err(21);
    }
    let [q, t, n, p] = [0, 1, 2, 3].map(|at| numbers[at] as usize);
    let fits = (1..=256).contains(&q)
        && (1..=64).contains(&t)
        && (1..=60).contains(&n)
        && (1..=128).contains(&p);
    if !fits {
        return Err(22);
    }
    if numbers.len() < 4 + 2 * p + q + q * (t + n) {
        return Err(21);
    }
    let lefts = &numbers[4..4 + p];
    let lengths = &numbers[4 + p..4 + 2 * p];
    let is_nonterminal = |s: u16| (t..t + n).contains(&(s as usize));
    if !lefts.iter().all(|&s| is_nonterminal(s)) || lengths.iter().any(|&length| length > 512) {
        return Err(23);
    }
    let (entered, cells) = numbers[4 + 2 * p..].split_at(q);
    let rows: Vec<&[u16]> = cells.chunks(t + n).take(q).collect();
    let all = || rows.iter().flat_map(|row| row.iter().map(|&cell| cell as usize).enumerate());
    if !all().all(|(column, cell)| is_good(column, cell, [q, t, p])) {
        return Err(24);
    }
    let named = |cell: usize| (1..q).contains(&cell).then(|| entered[cell] as usize);
    if entered[0] != 0
        || entered.iter().any(|&symbol| symbol as usize >= t + n)
        || all().any(|(column, cell)| named(cell).is_some_and(|symbol| symbol != column))
    {
        return Err(44);
    }
    Ok(Table { terminals: t, lefts, lengths, rows })
}

/// A reading under way.
struct Reading<'a> {
    table: &'a Table<'a>,
    input: &'a [u8],
    stack: &'a mut [u16],
    /// A fresh reading has none.
    list: Option<&'a mut [u16]>,
    /// The word of closed terminals; 0 for a publisher and in every fresh reading.
    closed: u64,
    step_limit: u64,
    steps: u64,
    depth: usize,
    listed: usize,
    position: usize,
}

impl<'a> Reading<'a> {
    fn new(
        table: &'a Table<'a>,
        input: &'a [u8],
        closed: u64,
        stack: &'a mut [u16],
        list: Option<&'a mut [u16]>,
        step_limit: u64,
    ) -> Reading<'a> {
        stack[0] = 0;
        let (steps, depth, listed, position) = (0, 1, 0, 0);
        Reading { table, input, stack, list, closed, step_limit, steps, depth, listed, position }
    }

    /// Reads to the end.
    fn run(&mut self) -> Outcome {
        let number = loop {
            if let Some(end) = self.step() {
                break end;
            }
        };
        let (depth, listed) = (self.depth as u64, self.listed as u64);
        let position = if number == 31 { self.position as u64 } else { 0 };
        Outcome { number, steps: self.steps, depth, listed, position, ..Outcome::default() }
    }

    /// Makes a step, or gives the end that comes before it; 0 with the acceptance.
    fn step(&mut self) -> Option<u64> {
        // A closed next terminal is wrong before all else; at the end there is none.
        if self.input.get(self.position).is_some_and(|&m| has(self.closed, m as usize)) {
            return Some(31);
        }
        let next = self.input.get(self.position).map_or(0, |&m| m as usize);
        let cell = self.table.rows[self.stack[self.depth - 1] as usize][next];
        if cell == 0 {
            return Some(31);
        }
        if self.steps == self.step_limit {
            return Some(32);
        }
        let end = match cell {
            4096 => Some(0),
            1024.. => self.reduce(cell as usize - 1024),
            _ => self.shift(cell),
        };
        if matches!(end, None | Some(0)) {
            self.steps += 1;
        }
        end
    }

    fn shift(&mut self, state: u16) -> Option<u64> {
        if self.depth == self.stack.len() {
            return Some(33);
        }
        self.stack[self.depth] = state;
        self.depth += 1;
        self.position += 1;
        None
    }

    fn reduce(&mut self, production: usize) -> Option<u64> {
        let length = self.table.lengths[production] as usize;
        if self.list.as_ref().is_some_and(|list| list.len() == self.listed) {
            return Some(34);
        }
        if length >= self.depth {
            return Some(35);
        }
        let below = self.table.rows[self.stack[self.depth - 1 - length] as usize];
        let next = below[self.table.lefts[production] as usize];
        if next == 0 {
            return Some(35);
        }
        if self.depth - length == self.stack.len() {
            return Some(33);
        }
        self.stack[self.depth - length..self.depth].fill(0);
        self.depth -= length;
        self.stack[self.depth] = next;
        self.depth += 1;
        if let Some(list) = &mut self.list {
            list[self.listed] = production as u16;
            self.listed += 1;
        }
        None
    }
}

fn has(word: u64, terminal: usize) -> bool {
    word >> terminal & 1 == 1
}

/// How a fresh reading ends over the terminals before the position and one more: with
/// 0 once that is shifted. For the end marker it reads those before alone, and 0 is
/// the acceptance.
fn fresh(
    table: &Table,
    before: &[u8],
    terminal: usize,
    second: &mut [u16],
    step_limit: u64,
) -> u64 {
    let mut line = before.to_vec();
    if terminal != 0 {
        line.push(terminal as u8);
    }
    let mut reading = Reading::new(table, &line, 0, second, None, step_limit);
    loop {
        if reading.position > before.len() {
            return 0;
        }
        if let Some(end) = reading.step() {
            return end;
        }
    }
}

/// The terminals that can follow those before the position, one fresh reading for
/// each that is not closed; none where a reading stops on 32, 33 or 35.
fn offer(
    table: &Table,
    before: &[u8],
    closed: u64,
    second: &mut [u16],
    step_limit: u64,
) -> Option<u64> {
    let mut offered = 0;
    for terminal in (0..table.terminals).filter(|&terminal| !has(closed, terminal)) {
        match fresh(table, before, terminal, second, step_limit) {
            0 => offered |= 1 << terminal,
            31 => {}
            _ => return None,
        }
    }
    Some(offered)
}

/// Refusals 25 to 27, then 45.
fn lent(terminals: usize, input: &[u8], stack: &[u16], second: &[u16]) -> Option<u64> {
    if input.len() > 65_535 {
        return Some(25);
    }
    if input.iter().any(|&m| m == 0 || m as usize >= terminals) {
        return Some(26);
    }
    if stack.is_empty() {
        return Some(27);
    }
    (second.len() < stack.len()).then_some(45)
}

/// Refusal 50: bit 0, or a bit from T on.
fn bad_closed(terminals: usize, closed: u64) -> Option<u64> {
    let bad = |m: usize| has(closed, m) && (m == 0 || m >= terminals);
    (0..64).any(bad).then_some(50)
}

/// Reads the input with the table, as a publisher.
pub fn parse(
    table: &[u16],
    input: &[u8],
    stack: &mut [u16],
    list: &mut [u16],
    second: &mut [u16],
    step_limit: u64,
) -> Outcome {
    parse_restricted(table, input, 0, stack, list, second, step_limit)
}

/// Reads the input with the table, as a choir, to which some terminals are closed.
pub fn parse_restricted(
    table: &[u16],
    input: &[u8],
    closed: u64,
    stack: &mut [u16],
    list: &mut [u16],
    second: &mut [u16],
    step_limit: u64,
) -> Outcome {
    let refused = |number| Outcome { number, ..Outcome::default() };
    let table = match table_of(table) {
        Ok(table) => table,
        Err(number) => return refused(number),
    };
    let lent = lent(table.terminals, input, stack, second);
    if let Some(number) = lent.or(bad_closed(table.terminals, closed)) {
        return refused(number);
    }
    let mut end = Reading::new(&table, input, closed, stack, Some(list), step_limit).run();
    if end.number == 31 {
        match offer(&table, &input[..end.position as usize], closed, second, step_limit) {
            Some(offered) => {
                end.expected = offered;
                end.expected_count = u64::from(offered.count_ones());
            }
            None => end.number = 46,
        }
    }
    second.fill(0);
    end
}

#[cfg(test)]
mod tests {
    use super::*;

    const A: [u16; 28] = [
        4, 3, 1, 2, 3, 3, 2, 1, 0, 2, 3, 1, 0, 0, 1, 2, 1025, 1025, 0, 0, 4096, 3, 0, 0, 1024,
        1024, 0, 0,
    ];

    fn read(input: &[u8], stack: usize, list: usize, limit: u64) -> ([u64; 7], Vec<u16>) {
        let (mut stack, mut list) = (vec![7; stack], vec![7; list]);
        let mut second = stack.clone();
        let out = parse(&A, input, &mut stack, &mut list, &mut second, limit).out();
        assert!(second.iter().all(|&place| place == 0));
        (out, list)
    }

    #[test]
    fn the_readings_of_the_paper() {
        let (out, list) = read(&[2, 1], 9, 9, 99);
        assert_eq!((out, &list[..3]), ([0, 5, 2, 2, 0, 0, 0], &[1, 0, 7][..]));
        assert_eq!(read(&[2, 1], 9, 9, 4).0[..2], [32, 4]);
        assert_eq!(read(&[2, 1], 9, 9, (1 << 32) + 4).0[..2], [0, 5]);
        assert_eq!(read(&[2, 1], 2, 9, 99).0[..2], [33, 2]);
        assert_eq!(read(&[2, 1], 9, 1, 99).0[..2], [34, 3]);
        assert_eq!(read(&[], 9, 9, 99).0, [31, 0, 1, 0, 0, 4, 1]);
        assert_eq!(read(&[2, 2], 9, 9, 99).0, [31, 1, 2, 0, 1, 3, 2]);
    }

    /// The seven numbers with a stack and a second area of so many places and no list.
    fn fresh_readings(table: &[u16], input: &[u8], areas: [usize; 2], limit: u64) -> [u64; 7] {
        let (mut stack, mut second) = (vec![7; areas[0]], vec![7; areas[1]]);
        let out = parse(table, input, &mut stack, &mut [], &mut second, limit).out();
        let old = if out[0] == 45 { 7 } else { 0 };
        assert!(second.iter().all(|&place| place == old));
        out
    }

    #[test]
    fn fresh_readings_need_steps_and_places() {
        let read = |input: &[u8], areas, limit| fresh_readings(&A, input, areas, limit);
        assert_eq!(read(&[], [2, 2], 1), [31, 0, 1, 0, 0, 4, 1]);
        assert_eq!(read(&[], [2, 2], 0), [46, 0, 1, 0, 0, 0, 0]);
        assert_eq!(read(&[], [1, 1], 1), [46, 0, 1, 0, 0, 0, 0]);
        assert_eq!(read(&[2, 2], [3, 3], 3), [31, 1, 2, 0, 1, 3, 2]);
        assert_eq!(read(&[2, 2], [2, 3], 3), [31, 1, 2, 0, 1, 3, 2]);
        for limit in [1, 2] {
            assert_eq!(read(&[2, 2], [3, 3], limit), [46, 1, 2, 0, 1, 0, 0]);
        }
        assert_eq!(read(&[2, 2], [2, 2], 99), [46, 1, 2, 0, 1, 0, 0]);
        // Shorter than the stack: nothing is read.
        assert_eq!(read(&[2, 2], [3, 2], 99), [45, 0, 0, 0, 0, 0, 0]);
    }

    #[test]
    fn a_fresh_reading_that_breaks_off() {
        // Terminal 1 is shifted; behind it 2 reduces by a production of three symbols.
        let table = [3, 3, 1, 1, 3, 3, 0, 1, 3, 0, 1, 0, 2, 0, 0, 1024, 0, 4096, 0, 0, 0];
        assert_eq!(fresh_readings(&table, &[1, 1], [9, 9], 99), [46, 1, 2, 0, 1, 0, 0]);
        assert_eq!(fresh_readings(&table, &[2], [9, 9], 99), [31, 0, 1, 0, 0, 2, 1]);
    }

    /// The seven numbers of a choir's reading by A's table.
    fn choir(input: &[u8], closed: u64, stack: usize, limit: u64) -> [u64; 7] {
        let (mut stack, mut list, mut second) = (vec![7; stack], vec![7; 9], vec![7; stack]);
        let out =
            parse_restricted(&A, input, closed, &mut stack, &mut list, &mut second, limit).out();
        let old = if out[2] == 0 { 7 } else { 0 };
        assert!(second.iter().all(|&place| place == old));
        assert!(list[out[3] as usize..].iter().all(|&place| place == 7));
        out
    }

    #[test]
    fn closed_terminals() {
        // No reduction under a closed terminal; 0 is always open; the set may be empty.
        assert_eq!(choir(&[2, 1], 2, 9, 99), [31, 1, 2, 0, 1, 1, 1]);
        assert_eq!(choir(&[], 4, 9, 99), [31, 0, 1, 0, 0, 0, 0]);
        assert_eq!(choir(&[2, 1], 4, 9, 99), [31, 0, 1, 0, 0, 0, 0]);
        assert_eq!(choir(&[2], 2, 9, 99), [0, 3, 2, 1, 0, 0, 0]);
        assert_eq!(choir(&[2, 1], 0, 9, 99), [0, 5, 2, 2, 0, 0, 0]);
        // Before 32 and 33; then 0 has no reading to its end, and 46 comes.
        assert_eq!(choir(&[2, 1], 2, 9, 1), [46, 1, 2, 0, 1, 0, 0]);
        assert_eq!(choir(&[2, 1], 2, 9, 3), [31, 1, 2, 0, 1, 1, 1]);
        assert_eq!(choir(&[2], 4, 1, 0), [31, 0, 1, 0, 0, 0, 0]);
        // A 46 that terminal 2 alone causes, and one of a terminal that is open.
        assert_eq!(choir(&[], 2, 9, 0), [46, 0, 1, 0, 0, 0, 0]);
        assert_eq!(choir(&[], 4, 9, 0), [31, 0, 1, 0, 0, 0, 0]);
        // A wrong terminal before a closed one, and behind it.
        assert_eq!(choir(&[2, 2, 1], 2, 9, 99), [31, 1, 2, 0, 1, 1, 1]);
        assert_eq!(choir(&[2, 1, 2, 1], 4, 9, 99), [31, 0, 1, 0, 0, 0, 0]);
    }

    #[test]
    fn bad_words() {
        for word in [1, 8, 9, 3, 1 << 63, u64::MAX] {
            assert_eq!(choir(&[2, 1], word, 9, 99)[0], 50);
            assert_eq!(choir(&[3], word, 9, 99)[0], 26);
            assert_eq!(choir(&[2, 1], word, 0, 99)[0], 27);
        }
        let (mut stack, mut list, mut second) = ([7; 9], [7; 9], [7; 8]);
        let out = parse_restricted(&A, &[2, 1], 1, &mut stack, &mut list, &mut second, 99).out();
        assert_eq!(out, [45, 0, 0, 0, 0, 0, 0]);
        assert_eq!((stack, list, second), ([7; 9], [7; 9], [7; 8]));
        // 64 terminals, of which 63 alone is shifted: only bit 0 is bad.
        let mut table = vec![2, 64, 1, 1, 64, 1, 0, 63];
        table.resize(8 + 2 * 65, 0);
        table[8 + 63] = 1;
        let read = |closed| {
            let areas = (&mut [7; 9], &mut [7; 9], &mut [7; 9]);
            parse_restricted(&table, &[63], closed, areas.0, areas.1, areas.2, 99).out()
        };
        assert_eq!(read(0), [31, 1, 2, 0, 1, 0, 0]);
        assert_eq!(read(1 << 63), [31, 0, 1, 0, 0, 0, 0]);
        assert_eq!(read(!1), [31, 0, 1, 0, 0, 0, 0]);
        assert_eq!(read(1 << 62), [31, 1, 2, 0, 1, 0, 0]);
        assert_eq!([read(1)[0], read(u64::MAX)[0]], [50; 2]);
    }

    /// Card A's table with other numbers at some places, read with a good input.
    fn damaged(places: &[(usize, u16)]) -> u64 {
        let mut table = A;
        places.iter().for_each(|&(place, number)| table[place] = number);
        parse(&table, &[2, 1], &mut [0; 9], &mut [0; 9], &mut [0; 9], 99).number
    }

    #[test]
    fn entering_symbols() {
        assert_eq!(damaged(&[]), 0);
        // At least T + N, not 0 for state 0, other than the column of a cell.
        assert_eq!([damaged(&[(9, 4)]), damaged(&[(9, 65_535)])], [44; 2]);
        assert_eq!([damaged(&[(8, 1)]), damaged(&[(8, 4)])], [44; 2]);
        assert_eq!([damaged(&[(9, 1)]), damaged(&[(10, 2)]), damaged(&[(11, 0)])], [44; 3]);
        assert_eq!([damaged(&[(13, 1)]), damaged(&[(19, 1)])], [44; 2]);
        // 24 before it.
        assert_eq!(damaged(&[(8, 1), (12, 1)]), 24);
        // A state that no cell names: any symbol.
        let unnamed = |symbol| damaged(&[(21, 0), (11, symbol)]);
        assert_eq!([0, 1, 2, 3].map(unnamed), [31; 4]);
        assert_eq!(unnamed(4), 44);
        // A table of the old form is short of the Q numbers.
        let old: Vec<u16> = [&A[..8], &A[12..]].concat();
        assert_eq!(parse(&old, &[2, 1], &mut [0; 9], &mut [0; 9], &mut [0; 9], 99).number, 21);
    }
}
