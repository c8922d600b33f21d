// The fresh readings of the second reader, with its switch for a fault: over a vector of states, and with numbers for
// what they may use.
use crate::closed;
use crate::wrong::{Call, Spot, Table};

// A fresh reading.
struct Fresh<'a> {
    table: &'a Table<'a>,
    states: Vec<u16>,
    steps: u64,
    reduced: usize,
    high: usize,
    limit: u64,
    places: usize,
    // How many reductions it may make.
    list: usize,
}

impl Fresh<'_> {
    fn action(&self, terminal: usize) -> usize {
        self.table.cell(*self.states.last().unwrap() as usize, terminal)
    }

    // Pops and pushes, or gives the end before it; `free`: a place is there without a look.
    fn push(&mut self, keep: usize, state: usize, free: bool) -> Result<(), u64> {
        if keep >= self.places && !free {
            return Err(33);
        }
        self.states.truncate(keep);
        self.states.push(state as u16);
        self.high = self.high.max(self.states.len());
        Ok(())
    }

    fn reduce(&mut self, r: usize) -> Result<(), u64> {
        let (depth, mut n) = (self.states.len(), self.table.length(r));
        if self.reduced == self.list {
            return Err(34);
        }
        if n == depth && self.table.is("fresh: state 0 may be popped") {
            n -= 1;
        }
        if n >= depth {
            return Err(35);
        }
        let next = self.table.cell(self.states[depth - n - 1] as usize, self.table.left(r));
        if next == 0 {
            return Err(if self.table.is("fresh: 35 for the next state is wrong") { 31 } else { 35 });
        }
        self.push(depth - n, next, false)?;
        self.reduced += 1;
        Ok(())
    }

    // Reads a terminal, perhaps the last: 0 once it is shifted, or accepted, else the end.
    fn read(&mut self, terminal: usize, last: bool) -> Result<(), u64> {
        let is = |name: &str| last && self.table.fault == name;
        let [step, place, accept] =
            ["fresh: last shift takes no step", "fresh: last shift takes no place", "fresh: acceptance takes no step"]
                .map(is);
        loop {
            let a = self.action(terminal);
            if a == 0 {
                return Err(31);
            }
            let free = a < 1024 && step || a == 4096 && accept;
            if self.steps >= self.limit && !free {
                return Err(32);
            }
            match a {
                4096 => {}
                1024.. => self.reduce(a - 1024)?,
                _ => self.push(self.states.len(), a, place)?,
            }
            self.steps += 1;
            if a < 1024 || a == 4096 {
                return Ok(());
            }
        }
    }

    // Reads terminals, and a last one; what follows it where a fault wants that.
    fn line(&mut self, before: &[u8], last: usize) -> u64 {
        let all = before.iter().try_for_each(|&m| self.read(m as usize, false));
        let end = match all.and_then(|()| self.read(last, true)) {
            Ok(()) => 0,
            Err(end) => end,
        };
        let behind = if end == 0 && last != 0 { self.read(0, true).err().unwrap_or(0) } else { end };
        match self.table.fault {
            "fresh: on behind the terminal" if behind != 31 => behind,
            "fresh: only what ends a sentence" => behind,
            _ => end,
        }
    }
}

// Steps that no fresh reading of the cases needs: a wrong one may have no end.
const MOST: u64 = 1_000_000;

// How many steps a fresh reading may make.
fn limit(fault: &str, limit: u64, made: u64) -> u64 {
    match fault {
        "fresh: steps that are left" => limit - made,
        "fresh: one step fewer" => limit.saturating_sub(1),
        "fresh: one step more" => limit.saturating_add(1),
        "fresh: limit modulo 2^32" => limit % (1 << 32),
        "fresh: limit as a signed number" => (limit as i64).max(0) as u64,
        "fresh: at most 65535 steps" => limit.min(65535),
        _ => limit,
    }
}

fn fresh<'a>(table: &'a Table<'a>, c: &Call, s: &Spot) -> Fresh<'a> {
    let places = match table.fault {
        "fresh: as many places as the stack" => c.stack.len(),
        "fresh: one place fewer" => c.second.len().saturating_sub(1),
        "fresh: one place more" => c.second.len() + 1,
        "fresh: at most 65535 places" => c.second.len().min(65535),
        _ => c.second.len(),
    };
    let list = match table.fault {
        "fresh: 34 at the list's length" | "fresh: wrong at the list's length" => c.list.len(),
        _ => usize::MAX,
    };
    let states = match table.fault {
        "fresh: from the stack as it is" => c.stack[..s.depth].to_vec(),
        _ => vec![0],
    };
    let limit = limit(table.fault, c.limit, s.steps).min(MOST);
    Fresh { table, states, steps: 0, reduced: 0, high: 1, limit, places, list }
}

// The terminals that the fresh readings begin with.
fn before<'a>(fault: &str, input: &'a [u8], s: &Spot) -> &'a [u8] {
    match fault {
        "fresh: behind the terminal met" => &input[..input.len().min(s.pos + 1)],
        "fresh: over the whole input" => input,
        "fresh: from the stack as it is" => &[],
        // A fault of the table's check may have shifted the end marker.
        _ => &input[..input.len().min(s.pos)],
    }
}

// What the end of a fresh reading for a terminal is taken for: 0 offered, 31 wrong, else it stopped.
fn taken(table: &Table, terminal: usize, end: u64) -> u64 {
    let stopped = end != 0 && end != 31;
    let last = table.at(1) - 1;
    match table.fault {
        "46: not for the end marker" if stopped && terminal == 0 => 31,
        "46: only for the end marker" if stopped && terminal != 0 => 31,
        "46: not for terminal T - 1" if stopped && terminal == last => 31,
        "46: as 31 with what was found" if stopped => 31,
        "fresh: wrong at the list's length" if end == 34 => 31,
        "fresh: 32 is wrong" if end == 32 => 31,
        "fresh: 33 is wrong" if end == 33 => 31,
        "fresh: 35 is wrong" if end == 35 => 31,
        "fresh: 32 is right" if end == 32 => 0,
        "31: end marker never offered" if terminal == 0 && end == 0 => 31,
        "31: terminal 1 never offered" if terminal == 1 && end == 0 => 31,
        "31: terminal T - 1 never offered" if terminal == last && end == 0 => 31,
        "31: terminal 63 never offered" if terminal == 63 && end == 0 => 31,
        _ => end,
    }
}

// What the fresh readings found.
#[derive(Default)]
struct Found {
    set: u64,
    // The number that the first of them stopped on, with its steps and states; 0 where none did.
    stopped: u64,
    stopped_steps: u64,
    states: Vec<u16>,
    // All their steps, those of the last of them, and the most places that one used.
    steps: u64,
    last_steps: u64,
    high: usize,
}

fn row(table: &Table, state: usize) -> u64 {
    (0..table.at(1)).filter(|&m| table.cell(state, m) != 0).map(|m| 1 << m).sum()
}

fn found(table: &Table, c: &Call, s: &Spot) -> Found {
    let mut all = Found::default();
    let before = before(table.fault, c.input, s);
    for m in 0..table.at(1) {
        let mut reading = fresh(table, c, s);
        let Some(end) = closed::taken(table, c, s, m, || taken(table, m, reading.line(before, m))) else { continue };
        all.steps += reading.steps;
        all.last_steps = reading.steps;
        all.high = all.high.max(reading.high);
        if end == 0 {
            all.set |= 1 << m;
        } else if end != 31 {
            all.stopped = end;
            all.stopped_steps = reading.steps;
            all.states = reading.states;
            if !table.is("46: only where nothing was found") {
                break;
            }
        }
    }
    if table.is("46: only where nothing was found") && all.set != 0 {
        all.stopped = 0;
    }
    all
}

// The set that is answered in place of what was found.
fn set(table: &Table, c: &Call, s: &Spot, all: &Found) -> u64 {
    let mut anew = fresh(table, c, s);
    let shifted = before("", c.input, s).iter().try_for_each(|&m| anew.read(m as usize, false));
    let last = if shifted.is_ok() { *anew.states.last().unwrap() as usize } else { 0 };
    match table.fault {
        "31: top row offered" => row(table, c.stack[s.depth - 1] as usize),
        "31: row before the reductions offered" => row(table, last),
        "31: end marker offered for any action" => all.set | row(table, last) & 1,
        "31: only the lowest offered" => all.set & all.set.wrapping_neg(),
        "31: expected word of 32 bits" => all.set % (1 << 32) | all.set >> 32,
        "closed: row offered at a closed terminal" if s.barred => row(table, s.top) & !c.closed.unwrap_or(0),
        _ => all.set,
    }
}

fn unknown(table: &Table, c: &mut Call, s: &Spot, all: &Found, out: &mut [u64; 7]) {
    out[0] = 46;
    match table.fault {
        "46: as 31 with nothing" => out[0] = 31,
        "46: answered with the number that the fresh reading stopped on" => out[0] = all.stopped,
        "46: position left out" => out[4] = 0,
        "46: position one too far" => out[4] += 1,
        "46: steps left out" => out[1] = 0,
        "46: steps with those of the fresh readings" => out[1] += all.steps,
        "46: steps of the fresh reading that stopped" => out[1] = all.stopped_steps,
        "46: depth of the fresh reading that stopped" => out[2] = all.states.len() as u64,
        "46: expected set of what was found" => out[5] = all.set,
        "46: size of what was found" => out[6] = all.set.count_ones() as u64,
        "46: list cleared" => c.list[..s.listed].fill(0),
        "46: stack of the fresh reading that stopped" => {
            let many = all.states.len().min(c.stack.len());
            c.stack[..many].copy_from_slice(&all.states[..many]);
        }
        _ => {}
    }
}

// Makes an answer of 31: position, and expected set or 46. How many places of the second area were used.
pub fn answer(table: &Table, c: &mut Call, s: &Spot, out: &mut [u64; 7]) -> usize {
    let past = table.is("31: position one too far at the end") && s.pos == c.input.len();
    out[4] = s.pos as u64 + past as u64;
    let all = found(table, c, s);
    if all.stopped != 0 {
        unknown(table, c, s, &all, out);
        return all.high;
    }
    out[5] = set(table, c, s, &all);
    out[6] = (out[5].count_ones() - (table.is("31: end marker not counted") && out[5] & 1 == 1) as u32) as u64;
    match table.fault {
        "31: steps with those of the fresh readings" => out[1] += all.steps,
        "31: steps of a fresh reading" => out[1] = all.last_steps,
        "31: position one too far" => out[4] += 1,
        "fresh: list written" => c.list.iter_mut().skip(s.listed).take(1).for_each(|place| *place = 0),
        "fresh: in the stack area" => {
            let many = all.high.min(c.stack.len());
            c.stack[..many].fill(0);
        }
        _ => {}
    }
    all.high
}

// Leaves the second area after an end, of which so many places were used.
pub fn leave(table: &Table, c: &mut Call, used: usize, end: u64) {
    let (least, last) = (c.stack.len().min(c.second.len()), c.second.len().saturating_sub(1));
    match table.fault {
        "second area left" => {}
        "second area left after 0" if end == 0 => {}
        "second area left after 31" if end == 31 => {}
        "second area left after 32" if end == 32 => {}
        "second area left after 33" if end == 33 => {}
        "second area left after 34" if end == 34 => {}
        "second area left after 35" if end == 35 => {}
        "second area left after 46" if end == 46 => {}
        "second area left but after 31" if end != 31 => {}
        "second area: last place left" => c.second[..last].fill(0),
        "second area: zero as far as the stack is long" => c.second[..least].fill(0),
        "second area: zero where it was used" => c.second[..used].fill(0),
        "second area: state 0 may stand in place 0" => c.second[1..].fill(0),
        _ => c.second.fill(0),
    }
}
