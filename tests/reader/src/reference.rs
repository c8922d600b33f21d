// An independent reader, written from the paper alone: the refusals in order, then the machine over a
// growing vector, and behind its 31 a fresh reading for each terminal. The areas are filled in at the end.
// It is the choir's, with a word of closed terminals; the publisher's is that with word 0.

#[derive(Default)]
pub struct Outcome {
    pub out: [u64; 7],
    // The most stack places ever in use; 0 for a refusal.
    pub high: usize,
    // Of the fresh readings: the most steps and places that one took, whether one stopped on 32, 33 and 35, whether one
    // reduced more often than the list has places, and the step at which one was given up (or 0).
    pub fresh_steps: u64,
    pub fresh_high: usize,
    pub stopped: [bool; 3],
    pub past_list: bool,
    pub endless: u64,
}

// The ends of a fresh reading that make 46 of 31.
pub const STOPS: [u64; 3] = [32, 33, 35];

// A fresh reading that makes so many steps behind the last terminal before the position is taken for endless.
pub const PATIENCE: u64 = 3000;

// The left sides, lengths, entering symbols and cells of a table that is long enough.
fn parts(table: &[u16]) -> [&[u16]; 4] {
    let [states, productions] = [0, 3].map(|i| table[i] as usize);
    let (left, rest) = table[4..].split_at(productions);
    let (length, rest) = rest.split_at(productions);
    let (entered, cells) = rest.split_at(states);
    [left, length, entered, cells]
}

// What 44 finds in a table with good sizes that is long enough: an entry at least T + N, one for state 0 that is not 0,
// one that differs from the column of a cell that names the state.
pub fn entered_faults(table: &[u16]) -> [bool; 3] {
    let [states, symbols] = [table[0], table[1] + table[2]].map(usize::from);
    let [_, _, entered, cells] = parts(table);
    let column_of = |place: usize| (place % symbols) as u16;
    let named = cells.iter().take(states * symbols).enumerate().filter(|(_, &v)| v != 0 && (v as usize) < states);
    [
        entered.iter().any(|&x| x as usize >= symbols),
        entered[0] != 0,
        named.into_iter().any(|(place, &state)| entered[state as usize] != column_of(place)),
    ]
}

// The entering symbols of the states that no cell of the table names, state 0 left out.
pub fn unnamed(table: &[u16]) -> Vec<u16> {
    let [states, symbols] = [table[0], table[1] + table[2]].map(usize::from);
    let [_, _, entered, cells] = parts(table);
    let mut named = vec![false; states];
    for &v in &cells[..states * symbols] {
        named.get_mut(v as usize).into_iter().for_each(|state| *state = true);
    }
    (1..states).filter(|&state| !named[state]).map(|state| entered[state]).collect()
}

// The cell of a terminal in the row of a state.
pub fn action(table: &[u16], state: u16, terminal: u8) -> u16 {
    let symbols = (table[1] + table[2]) as usize;
    parts(table)[3][state as usize * symbols + terminal as usize]
}

// The terminals whose cell in the row of a state is not 0.
pub fn top_row(table: &[u16], state: u16) -> u64 {
    (0..table[1] as u8).filter(|&m| action(table, state, m) != 0).map(|m| 1 << m).sum()
}

// The refusals of a table, in order.
fn table_refusal(table: &[u16]) -> Option<u64> {
    if table.len() < 4 {
        return Some(21);
    }
    let [states, terminals, nonterminals, productions] = [0, 1, 2, 3].map(|i| table[i] as usize);
    let sizes = (1..=256).contains(&states)
        && (1..=64).contains(&terminals)
        && (1..=60).contains(&nonterminals)
        && (1..=128).contains(&productions);
    if !sizes {
        return Some(22);
    }
    let symbols = terminals + nonterminals;
    if table.len() < 4 + 2 * productions + states + states * symbols {
        return Some(21);
    }
    let [left, length, _, cells] = parts(table);
    let is_nonterminal = |&x: &u16| (terminals..symbols).contains(&(x as usize));
    if !left.iter().all(is_nonterminal) || length.iter().any(|&n| n > 512) {
        return Some(23);
    }
    let is_state = |v: usize| v < states;
    let is_reduction = |v: usize| (1024..1024 + productions).contains(&v);
    let good = |x: usize, v: usize| match x {
        0 => v == 0 || v == 4096 || is_reduction(v),
        _ if x < terminals => is_state(v) || is_reduction(v),
        _ => is_state(v),
    };
    for row in cells.chunks_exact(symbols).take(states) {
        if !row.iter().enumerate().all(|(x, &v)| good(x, v as usize)) {
            return Some(24);
        }
    }
    entered_faults(table).contains(&true).then_some(44)
}

pub fn has(word: u64, terminal: u8) -> bool {
    word >> terminal & 1 == 1
}

// Whether a word of closed terminals has bit 0 or a bit from T on.
pub fn bad_closed(closed: u64, terminals: u16) -> bool {
    (0..64).any(|m| has(closed, m) && (m == 0 || u16::from(m) >= terminals))
}

fn refusal(table: &[u16], input: &[u8], closed: u64, [stack_len, second_len]: [usize; 2]) -> Option<u64> {
    if let Some(number) = table_refusal(table) {
        return Some(number);
    }
    if input.len() > 65535 {
        return Some(25);
    }
    if input.iter().any(|&m| m == 0 || m as usize >= table[1] as usize) {
        return Some(26);
    }
    if stack_len == 0 {
        return Some(27);
    }
    if second_len < stack_len {
        return Some(45);
    }
    bad_closed(closed, table[1]).then_some(50)
}

// The machine: a table, what is closed to it, and what it may use.
struct Machine<'a> {
    left: &'a [u16],
    length: &'a [u16],
    cells: &'a [u16],
    symbols: usize,
    closed: u64,
    places: usize,
    // None: no list.
    list: Option<usize>,
    step_limit: u64,
}

// What a reading has done.
struct Run {
    states: Vec<u16>,
    reduced: Vec<u16>,
    position: usize,
    steps: u64,
    high: usize,
}

impl Machine<'_> {
    fn start(&self) -> Run {
        Run { states: vec![0], reduced: Vec::new(), position: 0, steps: 0, high: 1 }
    }

    fn row(&self, q: u16) -> &[u16] {
        &self.cells[q as usize * self.symbols..][..self.symbols]
    }

    // How many states a reduction keeps, and the state that it pushes; or the end before it.
    fn reduction(&self, run: &Run, r: usize) -> Result<(usize, u16), u64> {
        if self.list == Some(run.reduced.len()) {
            return Err(34);
        }
        if self.length[r] as usize >= run.states.len() {
            return Err(35);
        }
        let keep = run.states.len() - self.length[r] as usize;
        match self.row(run.states[keep - 1])[self.left[r] as usize] {
            0 => Err(35),
            state => Ok((keep, state)),
        }
    }

    // One step with the next terminal, or the end before it; 0 with the acceptance.
    fn step(&self, run: &mut Run, next: u8) -> Result<(), u64> {
        let action = self.row(*run.states.last().unwrap())[next as usize];
        if action == 0 {
            return Err(31);
        }
        if run.steps == self.step_limit {
            return Err(32);
        }
        if action == 4096 {
            run.steps += 1;
            return Err(0);
        }
        let shifts = action < 1024;
        let (keep, state) =
            if shifts { (run.states.len(), action) } else { self.reduction(run, action as usize - 1024)? };
        if keep == self.places {
            return Err(33);
        }
        if shifts {
            run.position += 1;
        } else {
            run.reduced.push(action - 1024);
        }
        run.states.truncate(keep);
        run.states.push(state);
        run.high = run.high.max(run.states.len());
        run.steps += 1;
        Ok(())
    }

    // Reads until the input's end, or until so many terminals are shifted: the end, 0 where they are, and None where
    // too many steps are made behind the last but one of them.
    fn read(&self, run: &mut Run, input: &[u8], over: usize) -> Option<u64> {
        let mut waited = 0;
        while run.position < over {
            let next = input.get(run.position).copied();
            // A closed next terminal is wrong before all else. At the end there is none.
            if next.is_some_and(|m| has(self.closed, m)) {
                return Some(31);
            }
            if let Err(end) = self.step(run, next.unwrap_or(0)) {
                return Some(end);
            }
            waited += (run.position + 1 == over) as u64;
            if waited > PATIENCE {
                return None;
            }
        }
        Some(0)
    }
}

// The fresh readings over the terminals before the position, one for each terminal that is open: what is offered, or None
// where one stops. All are made, also behind one that stops: another reader may take them in another order, and wait for
// one without an end.
fn offer(
    machine: &Machine,
    open: impl Iterator<Item = u8>,
    before: &[u8],
    list: usize,
    o: &mut Outcome,
) -> Option<u64> {
    let mut line = before.to_vec();
    let mut offered = 0;
    for m in open {
        line.truncate(before.len());
        if m > 0 {
            line.push(m);
        }
        let mut run = machine.start();
        let end = machine.read(&mut run, &line, before.len() + 1);
        o.fresh_steps = o.fresh_steps.max(run.steps);
        o.fresh_high = o.fresh_high.max(run.high);
        o.past_list |= run.reduced.len() > list;
        match end {
            Some(0) => offered |= 1u64 << m,
            Some(31) => {}
            Some(number) => o.stopped[STOPS.iter().position(|&n| n == number).unwrap()] = true,
            None => o.endless = o.endless.max(run.steps),
        }
    }
    (!o.stopped.contains(&true) && o.endless == 0).then_some(offered)
}

// A call: what is lent to it.
pub struct Lent<'a> {
    pub stack: &'a mut [u16],
    pub list: &'a mut [u16],
    pub second: &'a mut [u16],
}

pub fn parse(table: &[u16], input: &[u8], closed: u64, lent: Lent, step_limit: u64) -> Outcome {
    let Lent { stack, list, second } = lent;
    let mut o = Outcome::default();
    if let Some(n) = refusal(table, input, closed, [stack.len(), second.len()]) {
        o.out[0] = n;
        return o;
    }
    let terminals = table[1] as usize;
    let symbols = terminals + table[2] as usize;
    let [left, length, _, cells] = parts(table);
    let (places, places_of_list) = (stack.len(), list.len());
    let mut machine = Machine { left, length, cells, symbols, closed, places, list: Some(places_of_list), step_limit };
    let mut run = machine.start();
    // The input's end is never shifted.
    let number = machine.read(&mut run, input, usize::MAX).unwrap();
    stack[..run.high].fill(0);
    stack[..run.states.len()].copy_from_slice(&run.states);
    list[..run.reduced.len()].copy_from_slice(&run.reduced);
    o.high = run.high;
    o.out = [number, run.steps, run.states.len() as u64, run.reduced.len() as u64, 0, 0, 0];
    if number == 31 {
        // Fresh readings are the publisher's.
        (machine.closed, machine.places, machine.list) = (0, second.len(), None);
        let open = (0..terminals as u8).filter(|&m| !has(closed, m));
        o.out[4] = run.position as u64;
        match offer(&machine, open, &input[..run.position], places_of_list, &mut o) {
            Some(set) => (o.out[5], o.out[6]) = (set, (0..64).filter(|m| set >> m & 1 == 1).count() as u64),
            None => o.out[0] = 46,
        }
    }
    second.fill(0);
    o
}
