// What the second reader makes of closed terminals, with its switch for a fault.
use crate::wrong::{Call, Spot, Table};

// Whether bit m of a word is set; no word has bits from 64 on.
fn bit(word: u64, m: usize) -> bool {
    word.checked_shr(m as u32).unwrap_or(0) & 1 == 1
}

// Whether a word is refused, with so many terminals.
pub fn bad(fault: &str, word: u64, terminals: usize) -> bool {
    let from = |m: usize| word.checked_shr(m as u32).unwrap_or(0) != 0;
    let zero = bit(word, 0);
    match fault {
        "50: not checked" => false,
        "50: bit 0 passes" => from(terminals),
        "50: bit T passes" => zero || from(terminals + 1),
        "50: bits above T pass" => zero || bit(word, terminals),
        "50: bits from T on pass" => zero,
        "50: terminal T - 1 refused" => zero || from(terminals - 1),
        "50: shift by 64 with 64 terminals" => zero || word >> (terminals % 64) != 0,
        "50: word 0 refused" => zero || from(terminals) || word == 0,
        "50: lower half of the word checked" => zero || terminals < 32 && word as u32 >> terminals != 0,
        _ => zero || from(terminals),
    }
}

// Whether the word of a call closes a terminal.
fn has(fault: &str, word: u64, m: usize) -> bool {
    match fault {
        "closed: terminals modulo 32" => bit(word, m % 32),
        "closed: bit m for terminal m + 1" => m > 0 && bit(word, m - 1),
        "closed: bit m for terminal m - 1" => bit(word, m + 1),
        "closed: bits of the open ones" => m != 0 && !bit(word, m),
        _ => bit(word, m),
    }
}

fn is_closed(table: &Table, c: &Call, m: usize) -> bool {
    c.closed.is_some_and(|word| has(table.fault, word, m))
}

// Whether a closed terminal stands at a place of the input.
fn stands(table: &Table, c: &Call, at: usize) -> bool {
    c.input.get(at).is_some_and(|&m| is_closed(table, c, m as usize))
}

// The terminal that the next step looks at.
pub fn next(table: &Table, c: &Call, s: &Spot) -> usize {
    let end = table.is("closed: taken for the end") && stands(table, c, s.pos);
    c.input.get(s.pos).filter(|_| !end).copied().unwrap_or(0) as usize
}

// Whether a reduction would end the reading with 35.
fn breaks(table: &Table, c: &Call, s: &Spot, r: usize) -> bool {
    let n = table.length(r);
    n >= s.depth || table.cell(c.stack[s.depth - n - 1] as usize, table.left(r)) == 0
}

// Whether the reading stops since the next terminal is closed; the cell there is a.
pub fn bars(table: &Table, c: &Call, s: &Spot, a: usize, out_of_steps: bool) -> bool {
    let (here, last) = (stands(table, c, s.pos), s.pos + 1 == c.input.len());
    let met = c.input.get(s.pos).copied().unwrap_or(0);
    let behind = || (s.pos + 1..c.input.len()).any(|at| stands(table, c, at));
    let reduces = (1024..4096).contains(&a);
    let but = match table.fault {
        "closed: not tested" | "closed: taken for the end" => true,
        "closed: tested at a shift alone" => reduces,
        "closed: after 32" => out_of_steps,
        "closed: after 33" => a > 0 && a < 1024 && s.depth == c.stack.len(),
        "closed: after 34" => reduces && s.listed == c.list.len(),
        "closed: after 35" => reduces && breaks(table, c, s, a - 1024),
        "closed: first terminal of the input not tested" => s.pos == 0,
        "closed: last terminal of the input not tested" => last,
        "closed: the last one taken for the first" => here && behind(),
        "closed: terminal 63 not tested" => met == 63,
        "closed: terminals from 32 on not tested" => met >= 32,
        "closed: shifted" => return s.pos > 0 && stands(table, c, s.pos - 1),
        "closed: the last terminal taken for closed" => return here || last && c.closed.is_some(),
        "closed: the end taken for closed" => return here || s.pos == c.input.len() && c.closed.is_some(),
        _ => false,
    };
    here && !but
}

// Whether fresh readings for closed terminals are made.
fn looks(fault: &str) -> bool {
    fault.contains("the expected set") || fault.contains("makes 46")
}

// What the fresh reading for a terminal is taken for, as in `offers`; None: none is made.
pub fn taken(table: &Table, c: &Call, s: &Spot, m: usize, read: impl FnOnce() -> u64) -> Option<u64> {
    let Some(word) = c.closed else { return Some(read()) };
    let here = c.input.get(s.pos).is_some_and(|&next| next as usize == m);
    if is_closed(table, c, m) {
        if !looks(table.fault) {
            return None;
        }
        let end = read();
        let (shifts, stops) = (end == 0, end != 0 && end != 31);
        let (offered, unknown) = match table.fault {
            "closed: in the expected set" => (shifts, false),
            "closed: in the expected set at a closed terminal" => (shifts && s.barred, false),
            "closed: in the expected set elsewhere" => (shifts && !s.barred, false),
            "closed: the one met in the expected set" => (shifts && here, false),
            "closed: makes 46" => (false, stops),
            "closed: makes 46 at a closed terminal" => (false, stops && s.barred),
            "closed: makes 46 elsewhere" => (false, stops && !s.barred),
            _ => (false, false),
        };
        return Some(if offered || unknown { end } else { 31 });
    }
    let end = read();
    let stops = end != 0 && end != 31;
    let wrong = match table.fault {
        "closed: no 46 at a closed terminal" => stops && s.barred,
        "closed: no 46 where terminals are closed" => stops && word != 0,
        "closed: nothing expected at a closed terminal" => end == 0 && s.barred,
        "closed: end marker not expected" => end == 0 && m == 0 && word != 0,
        "closed: end marker not expected at a closed terminal" => end == 0 && m == 0 && s.barred,
        _ => false,
    };
    Some(if wrong { 31 } else { end })
}

// Changes the answer 31 or 46.
pub fn answer(table: &Table, c: &mut Call, s: &Spot, out: &mut [u64; 7]) {
    let behind = (s.pos..c.input.len()).find(|&at| stands(table, c, at));
    if let (Some(at), "closed: position of one behind a wrong terminal") = (behind, table.fault) {
        out[4] = at as u64;
    }
    if let (Some(word), 31, "closed: counted in the expected set's size") = (c.closed, out[0], table.fault) {
        out[6] += word.count_ones() as u64;
    }
    if !s.barred {
        return;
    }
    match table.fault {
        "closed: answered as 26" => *out = [26, 0, 0, 0, 0, 0, 0],
        "closed: answered as 35" => *out = [35, out[1], out[2], out[3], 0, 0, 0],
        "closed: position one too far" => out[4] += 1,
        "closed: position left out" => out[4] = 0,
        "closed: a step counted" => out[1] += 1,
        "closed: list cleared at a closed terminal" => c.list[..s.listed].fill(0),
        "closed: stack cleared at a closed terminal" => c.stack[..s.depth].fill(0),
        _ => {}
    }
}
