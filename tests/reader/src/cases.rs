// Random cases: tables of random grammars, random tables that pass the check, damaged ones, ones without entering
// symbols; inputs, words of closed terminals, areas with old contents, and step limits.
use crate::lalr::{self, Grammar};
use crate::reference::{self, Lent};
use std::rc::Rc;

#[derive(Clone)]
pub struct Random(u64);

impl Random {
    pub fn new(seed: u64) -> Random {
        Random(seed)
    }

    // SplitMix64
    pub fn next(&mut self) -> u64 {
        self.0 = self.0.wrapping_add(0x9e3779b97f4a7c15);
        let z = (self.0 ^ self.0 >> 30).wrapping_mul(0xbf58476d1ce4e5b9);
        let z = (z ^ z >> 27).wrapping_mul(0x94d049bb133111eb);
        z ^ z >> 31
    }

    // 0 to n-1
    pub fn below(&mut self, n: usize) -> usize {
        ((self.next() as u32 as u64 * n as u64) >> 32) as usize
    }

    pub fn between(&mut self, low: usize, high: usize) -> usize {
        low + self.below(high - low + 1)
    }

    // True once in n times.
    pub fn one_in(&mut self, n: usize) -> bool {
        self.below(n) == 0
    }

    fn of<T: Copy>(&mut self, from: &[T]) -> T {
        from[self.below(from.len())]
    }
}

#[derive(Clone, Default)]
pub struct Case {
    pub table: Vec<u16>,
    pub input: Vec<u8>,
    // The choir's word; the publisher's call has none.
    pub closed: u64,
    pub stack: Vec<u16>,
    pub list: Vec<u16>,
    pub second: Vec<u16>,
    pub limit: u64,
    // The table was made without entering symbols and has not been damaged.
    pub without_entered: bool,
}

// A grammar with its table, and the production of least height for each nonterminal.
struct Language {
    grammar: Grammar,
    table: Vec<u16>,
    least: Vec<usize>,
}

impl Language {
    fn new(grammar: Grammar) -> Option<Language> {
        let all = grammar.terminals + grammar.nonterminals;
        let mut least = vec![usize::MAX; all];
        let mut done: Vec<bool> = (0..all).map(|x| x < grammar.terminals).collect();
        for _ in 0..grammar.nonterminals {
            let before = done.clone();
            for (p, (&a, right)) in grammar.left.iter().zip(&grammar.right).enumerate() {
                if !done[a] && right.iter().all(|&x| before[x]) {
                    done[a] = true;
                    least[a] = p;
                }
            }
        }
        if done.contains(&false) {
            return None;
        }
        let table = lalr::table(&grammar)?;
        Some(Language { grammar, table, least })
    }

    fn sentence(&self, long: usize, r: &mut Random) -> Vec<u8> {
        let mut out = Vec::new();
        self.derive(self.grammar.terminals, long, 0, r, &mut out);
        out
    }

    // Appends a random string derived from symbol x; least trees once it is long enough.
    fn derive(&self, x: usize, long: usize, depth: usize, r: &mut Random, out: &mut Vec<u8>) {
        let g = &self.grammar;
        if x < g.terminals {
            out.push(x as u8);
            return;
        }
        let mut p = self.least[x];
        if out.len() < long && depth < 100 + long / 4 {
            // Three tries for another production than the least.
            for _ in 0..3 {
                let from = r.below(g.left.len());
                p = (from..g.left.len()).chain(0..from).find(|&p| g.left[p] == x).unwrap();
                if p != self.least[x] || r.one_in(4) {
                    break;
                }
            }
        }
        for &y in &g.right[p] {
            self.derive(y, long, depth + 1, r, out);
        }
    }
}

fn random_grammar(r: &mut Random) -> Grammar {
    let (t, n) = (r.between(1, 6), r.between(1, 4));
    let p = r.between(n, 9);
    let lengths = r.of(&[2, 3, 4, 6]);
    let symbol = |r: &mut Random| {
        if t == 1 || r.one_in(2) {
            r.between(t, t + n - 1)
        } else {
            r.between(1, t - 1)
        }
    };
    let left = (0..p).map(|i| if i < n { t + i } else { r.between(t, t + n - 1) }).collect();
    let right = (0..p).map(|_| (0..r.below(lengths)).map(|_| symbol(r)).collect()).collect();
    Grammar { terminals: t, nonterminals: n, left, right }
}

// Each nonterminal's right sides begin with terminals of their own: no conflict, many symbols.
fn wide_grammar(r: &mut Random) -> Grammar {
    let (t, n) = (r.between(40, 64), r.between(20, 60));
    let p = r.between(n, 128);
    let left: Vec<usize> = (0..p).map(|i| if i < n { t + i } else { r.between(t, t + n - 1) }).collect();
    let mut next = vec![1; t + n];
    let mut right = Vec::new();
    for (i, &a) in left.iter().enumerate() {
        let mut symbols = vec![next[a]];
        next[a] = (next[a] + 1).min(t - 1);
        if i < n - 1 {
            symbols.push(t + i + 1);
        }
        right.push(symbols);
    }
    Grammar { terminals: t, nonterminals: n, left, right }
}

fn card_a() -> Grammar {
    Grammar { terminals: 3, nonterminals: 1, left: vec![3, 3], right: vec![vec![3, 1], vec![2]] }
}

// Expressions: + 1, * 2, ( 3, ) 4, number 5; E 6, T 7, F 8.
fn expressions() -> Grammar {
    let right = [vec![6, 1, 7], vec![7], vec![7, 2, 8], vec![8], vec![3, 6, 4], vec![5]];
    Grammar { terminals: 6, nonterminals: 3, left: vec![6, 6, 7, 7, 8, 8], right: right.to_vec() }
}

// The highest terminals: S -> 63 S 62 | 63 | 1.
fn high_terminals() -> Grammar {
    Grammar { terminals: 64, nonterminals: 1, left: vec![64; 3], right: vec![vec![63, 64, 62], vec![63], vec![1]] }
}

// Entering symbols of q states, of w symbols: each symbol but 0 in turn, so that few columns name no state, or by chance.
fn entering_symbols(r: &mut Random, q: usize, w: usize) -> Vec<u16> {
    let (in_turn, first) = (!r.one_in(4), r.below(w));
    let symbol = |i: usize, r: &mut Random| match i {
        0 => 0,
        _ if in_turn => 1 + (first + i) % (w - 1),
        _ => r.below(w),
    };
    (0..q).map(|i| symbol(i, r) as u16).collect()
}

// A random table that passes the check.
fn foreign(r: &mut Random, table: &mut Vec<u16>) {
    let (q, t, n, p);
    if r.one_in(100) {
        (q, t, n, p) = (r.between(200, 256), r.between(50, 64), r.between(40, 60), r.between(100, 128));
    } else if r.one_in(100) {
        (q, t, n, p) = (r.of(&[1, 256]), r.of(&[1, 64]), r.of(&[1, 60]), r.of(&[1, 128]));
    } else {
        (q, t, n, p) = (r.between(1, 14), r.between(1, 6), r.between(1, 4), r.between(1, 10));
    }
    let entered = entering_symbols(r, q, t + n);
    let states = |x: usize| (1..q).filter(|&i| entered[i] as usize == x).collect::<Vec<usize>>();
    let states: Vec<Vec<usize>> = (0..t + n).map(states).collect();
    table.clear();
    table.extend([q, t, n, p].map(|x| x as u16));
    table.extend((0..p).map(|_| r.between(t, t + n - 1) as u16));
    let longest = r.of(&[0, 1, 2, 3, 5, 9, 512]);
    table.extend((0..p).map(|_| r.between(0, longest) as u16));
    table.extend(entered);
    let (holes, reductions) = (r.of(&[0, 0, 1, 5, 20]), r.of(&[5, 20, 40, 60, 100]));
    for i in 0..q {
        // A reduction in state 0 mostly ends with 35.
        let reductions = if i == 0 && !r.one_in(5) { 0 } else { reductions };
        for x in 0..t + n {
            let state = if states[x].is_empty() { 0 } else { r.of(&states[x]) };
            let v = if r.below(100) < holes {
                0
            } else if x >= t {
                state
            } else if x == 0 && r.one_in(3) {
                4096
            } else if x == 0 || r.below(100) < reductions {
                1024 + r.below(p)
            } else {
                state
            };
            table.push(v as u16);
        }
    }
}

// Changes an entering symbol, or a cell to a state that is entered under another symbol. A symbol below T + N of a state
// that no cell names may be any.
fn enter_otherwise(r: &mut Random, table: &mut [u16]) {
    let [q, t, n, p] = [0, 1, 2, 3].map(|i| table[i] as usize);
    let (w, entered) = (t + n, 4 + 2 * p);
    let any = entered + r.below(q);
    let row = entered + q + r.below(q) * w;
    match r.below(7) {
        0 => table[any] = r.of(&[w, w, w + 1, 1024, 65535]) as u16,
        1 => table[entered] = r.between(1, w) as u16,
        2 => table[any] = r.below(w) as u16,
        3 => table[any] = w as u16 - 1,
        4 => table[any] += 256,
        5 if t > 1 => table[row + r.between(1, t - 1)] = r.below(q) as u16,
        _ => table[row + r.between(t, w - 1)] = r.below(q) as u16,
    }
}

// Takes the entering symbols out of a table; perhaps so many numbers follow that it is long enough.
fn without_entered(r: &mut Random, table: &mut Vec<u16>) {
    let (q, entered) = (table[0] as usize, 4 + 2 * table[3] as usize);
    table.drain(entered..entered + q);
    let high = r.of(&[1, 1, 2, 5, 65536]);
    let behind = r.of(&[0, q - 1, q, q, q + 1]);
    table.extend((0..behind).map(|_| r.below(high) as u16));
}

// Damages some numbers of a table, or cuts it.
fn damage(r: &mut Random, table: &mut Vec<u16>) {
    let [q, t, n, p] = [0, 1, 2, 3].map(|i| table[i]);
    if r.one_in(8) {
        let keep = match r.below(3) {
            0 => r.below(6),
            1 => table.len() - r.between(1, 3),
            _ => table.len() - q as usize,
        };
        table.truncate(keep.min(table.len()));
        if r.one_in(2) {
            return;
        }
    }
    let own = [q - 1, q, q + 1, t - 1, t, t + n - 1, t + n, 1023 + p, 1024 + p];
    let fixed = [0, 1, 60, 61, 64, 65, 128, 129, 256, 257, 511, 512, 513, 1023, 1024, 4095, 4096, 4097, 65535];
    for _ in 0..r.between(1, 2) {
        if table.is_empty() {
            return;
        }
        let at = match r.below(8) {
            0 => r.below(4),
            1 | 2 => 4 + r.below(2 * p as usize),
            _ => r.below(table.len()),
        };
        if at < table.len() {
            table[at] = match r.below(5) {
                0 => r.next() as u16,
                1 | 2 => r.of(&own),
                _ => r.of(&fixed),
            };
        }
    }
}

// A limit from 2^32 on whose lower half, or what is left without some of its high bits, is few steps.
fn wide_limit(r: &mut Random, few: u64) -> u64 {
    let high = match r.below(3) {
        0 => 1 << 32,
        1 => 1 << r.between(32, 63),
        _ => (r.next() >> 32).max(1) << 32,
    };
    high + few
}

// Step limits: ones that are reached, ones that are not, ones of more than 32 bits and ones beside their bounds.
fn step_limit(r: &mut Random) -> u64 {
    let few = r.of(&[0, 1, 2, 3, 5, 9, 20, 50, 100]);
    if r.one_in(3) {
        return few;
    }
    match r.below(4) {
        0 => wide_limit(r, few),
        1 => r.of(&[(1 << 32) - 1, 1 << 32, (1 << 32) + 1, (1 << 63) - 1, 1 << 63, u64::MAX - 1, u64::MAX]),
        _ => r.of(&[3000, 1000000]),
    }
}

// A word of closed terminals: none, all, some, one that the input has (the first, the last or any), ones that it does not
// have; now and then with bit 0 or with bits from T on.
fn closed_word(r: &mut Random, table: &[u16], input: &[u8]) -> u64 {
    let t = table.get(1).map_or(1, |&t| t as usize).clamp(1, 64);
    let all = u64::MAX >> (64 - t) & !1;
    let bit = |m: u8| 1u64.checked_shl(m.into()).unwrap_or(0) & all;
    let met = input.iter().fold(0, |word, &m| word | bit(m));
    let of_input = |at: usize| input.get(at).map_or(0, |&m| bit(m));
    let any = r.next();
    let few = any & r.next() & r.next() & all;
    // Else most readings would end at once.
    let first = if r.one_in(4) { 0 } else { of_input(0) };
    match r.below(40) {
        0..=4 => 0,
        5 => all,
        6..=8 => r.next() & all & !first,
        9..=12 => few & !first,
        13 | 14 => bit(r.below(t) as u8) & !first,
        15 => bit(t as u8 - 1) & !first,
        16 | 17 => of_input(0),
        18..=21 => of_input(input.len().wrapping_sub(1)) & !first,
        22..=27 => of_input(r.below(input.len() + 1)) & !first,
        28..=30 => (of_input(r.below(input.len() + 1)) | few) & !first,
        31..=33 => all & !met,
        34 | 35 => all & !met & r.next(),
        36 => few | 1,
        37 => few | 1 << t.min(63),
        38 => few | 1 << r.between(t.min(63), 63),
        _ => r.of(&[u64::MAX, u64::MAX << t.min(63), 1 << 63, any]),
    }
}

fn fill(r: &mut Random, area: &mut Vec<u16>, n: usize) {
    area.clear();
    while area.len() < n {
        let x = r.next();
        area.extend([0, 16, 32, 48].map(|s| (x >> s) as u16));
    }
    area.truncate(n);
}

// How long the areas of a case are.
struct Lengths {
    stack: usize,
    list: usize,
    second: usize,
}

impl Lengths {
    // Short ones, or ones that are mostly enough.
    fn new(r: &mut Random) -> Lengths {
        let lengths = [0, 1, 1, 2, 3, 4, 6, 10, 30, 100];
        let stack = if r.one_in(3) { r.of(&lengths) } else { 300 };
        let list = if r.one_in(3) { r.of(&lengths) } else { 300 };
        Lengths { stack, list, second: second_length(r, stack) }
    }
}

// The second area: as long as the stack, one place longer, more places longer, or too short.
fn second_length(r: &mut Random, stack: usize) -> usize {
    if r.one_in(1000) {
        return 65536 + r.below(40);
    }
    match r.below(40) {
        0 => stack.saturating_sub(1),
        1 => r.below(stack + 1),
        2..=19 => stack,
        20..=29 => stack + 1,
        _ => stack + r.below(40),
    }
}

// A copy begins where the original is.
#[derive(Clone)]
pub struct Cases {
    random: Random,
    // For the words.
    words: Random,
    pub case: Case,
    languages: Rc<[Language]>,
    foreign: Vec<u16>,
    count: u64,
    scratch: [Vec<u16>; 3],
}

impl Cases {
    pub fn new(seed: u64) -> Cases {
        let mut random = Random::new(seed);
        let mut languages: Vec<Language> = [card_a(), expressions()].into_iter().filter_map(Language::new).collect();
        while languages.len() < 200 {
            let rich = |l: &Language, r: &mut Random| (0..20).any(|_| l.sentence(10, r).len() >= 10);
            languages.extend(
                Language::new(random_grammar(&mut random)).filter(|l| random.one_in(50) || rich(l, &mut random)),
            );
        }
        languages.extend(Language::new(high_terminals()));
        while languages.len() < 206 {
            languages.extend(Language::new(wide_grammar(&mut random)));
        }
        let scratch = [(); 3].map(|_| vec![0; 4000]);
        let (words, languages) = (Random::new(!seed), languages.into());
        Cases { random, words, case: Case::default(), languages, foreign: Vec::new(), count: 0, scratch }
    }

    // Makes the next case.
    pub fn step(&mut self) {
        self.count += 1;
        self.case.without_entered = false;
        if self.count % 2500 == 1 {
            huge(&mut self.random, &mut self.case, &self.languages, &mut self.foreign);
            self.huge_word();
            return;
        }
        self.case.input.clear();
        self.case.table.clear();
        if self.random.one_in(2) {
            self.language();
        } else {
            self.foreign();
        }
        let entered_otherwise = self.damaged();
        self.case.closed = closed_word(&mut self.words, &self.case.table, &self.case.input);
        let r = &mut self.random;
        let mut lengths = Lengths::new(r);
        self.case.limit = step_limit(r);
        if r.one_in(6) {
            lengths = self.just_enough();
        }
        // 44 beside 26 and 27.
        let (r, c) = (&mut self.random, &mut self.case);
        if entered_otherwise && r.one_in(4) {
            c.input.push(0);
        }
        if entered_otherwise && r.one_in(4) {
            lengths.stack = 0;
        }
        fill(r, &mut c.stack, lengths.stack);
        fill(r, &mut c.list, lengths.list);
        fill(r, &mut c.second, lengths.second);
    }

    // A table of a grammar, and terminals by chance, or a sentence of it, perhaps cut or changed.
    fn language(&mut self) {
        let (r, c) = (&mut self.random, &mut self.case);
        let first = if r.one_in(100) { 200 } else { 0 };
        let l = &self.languages[first + r.below(if first == 0 { 200 } else { self.languages.len() - 200 })];
        c.table.extend(&l.table);
        let t = l.grammar.terminals;
        if t > 1 && r.one_in(5) {
            let n = r.below(20);
            c.input.extend((0..n).map(|_| r.between(1, t - 1) as u8));
            return;
        }
        // now and then long enough for a copy of the stack on the way
        let long = if r.one_in(100) { 2000 } else { r.of(&[5, 20, 100]) };
        c.input = l.sentence(long, r);
        let n = c.input.len();
        match r.below(4) {
            0 => c.input.truncate(r.below(n + 1)),
            1 if n > 0 && t > 1 => c.input[r.below(n)] = r.between(1, t - 1) as u8,
            _ => {}
        }
    }

    // A random table, the same for some cases, and terminals by chance.
    fn foreign(&mut self) {
        let (r, c) = (&mut self.random, &mut self.case);
        if self.count % 8 == 2 || self.foreign.is_empty() {
            foreign(r, &mut self.foreign);
        }
        c.table.extend(&self.foreign);
        let t = c.table[1] as usize;
        if t > 1 {
            let most = if r.one_in(50) { 2000 } else { 30 };
            let n = r.below(most);
            c.input.extend((0..n).map(|_| r.between(1, t - 1) as u8));
        }
    }

    // Damages the case now and then; whether its entering symbols, and nothing else of the table.
    fn damaged(&mut self) -> bool {
        let (r, c) = (&mut self.random, &mut self.case);
        if r.one_in(40) {
            let bad = [0, c.table[1] as u8, c.table[1] as u8 + 1, 255];
            let (at, b) = (r.below(c.input.len() + 1), r.of(&bad));
            c.input.insert(at, b);
        }
        let mut entered_otherwise = r.one_in(12);
        if entered_otherwise {
            enter_otherwise(r, &mut c.table);
        } else if r.one_in(40) {
            without_entered(r, &mut c.table);
            c.without_entered = true;
        }
        if r.one_in(6) {
            (entered_otherwise, c.without_entered) = (false, false);
            damage(r, &mut c.table);
        }
        if r.one_in(6) {
            let n = r.of(&[1, 2, 30]);
            c.table.extend((0..n).map(|_| r.next() as u16));
        }
        entered_otherwise
    }

    // The word of a huge case: often the last terminal, another than those before it, is closed.
    fn huge_word(&mut self) {
        let (r, c) = (&mut self.words, &mut self.case);
        let others = (1..c.table[1] as u8).filter(|m| !c.input.contains(m)).collect::<Vec<u8>>();
        if let (Some(last), false, true) = (c.input.last_mut(), others.is_empty(), r.one_in(2)) {
            *last = r.of(&others);
            c.closed = 1 << *last;
            return;
        }
        c.closed = closed_word(r, &c.table, &c.input);
    }

    // Limits that are just reached, or just missed, by the reading or by its fresh readings: the publisher's or the choir's.
    fn just_enough(&mut self) -> Lengths {
        let (r, c) = (&mut self.random, &mut self.case);
        let [stack, list, second] = &mut self.scratch;
        let closed = if self.words.one_in(2) { c.closed } else { 0 };
        let o = reference::parse(&c.table, &c.input, closed, Lent { stack, list, second }, 3000);
        let mut lengths = Lengths { stack: 1000, list: 1000, second: 1000 };
        c.limit = u64::MAX;
        let off = r.below(3);
        let about = |many: usize| (many + off).saturating_sub(1);
        match r.below(6) {
            0 => c.limit = about(o.out[1] as usize) as u64,
            1 => lengths.stack = about(o.high),
            2 => lengths.list = about(o.out[3] as usize),
            3 => c.limit = about(o.fresh_steps as usize) as u64,
            4 => c.limit = o.out[1].max(about(o.fresh_steps as usize) as u64),
            _ => (lengths.stack, lengths.second) = (o.high, about(o.fresh_high).max(o.high)),
        }
        if lengths.stack < 1000 && lengths.second == 1000 {
            lengths.second = second_length(r, lengths.stack);
        }
        if c.limit < 1 << 32 && r.one_in(4) {
            c.limit = wide_limit(r, c.limit);
        }
        lengths
    }
}

// An input of 65,535 or 65,536 terminals, or a run that pushes more than 65,535 states, with large areas.
fn huge(r: &mut Random, c: &mut Case, languages: &[Language], spare: &mut Vec<u16>) {
    let n = r.between(65535, 65536);
    c.table.clear();
    c.input.clear();
    match r.below(4) {
        0 => {
            // Sentences of card A, but for the last terminal of some.
            c.table.extend(&languages[0].table);
            c.input.push(2);
            c.input.resize(n, 1);
            c.input[n - 1] = r.between(1, 2) as u8;
        }
        1 => {
            // Expressions: number + number * number + ..
            c.table.extend(&languages[1].table);
            while c.input.len() < n {
                let sign = r.between(1, 2) as u8;
                c.input.extend([5, sign]);
            }
            c.input.truncate(n);
        }
        2 => pushing(r, c, n),
        _ => huge_foreign(r, c, spare, n),
    }
    if r.one_in(4) {
        enter_otherwise(r, &mut c.table);
    }
    fill(r, &mut c.stack, 70000);
    fill(r, &mut c.list, 200000);
    let second = r.of(&[69999, 70000, 70000, 70001, 70040]);
    fill(r, &mut c.second, second);
    c.limit = r.of(&[150000, u32::MAX as u64, 1 << 32, u64::MAX]);
}

// Every terminal shifts, and state 2 pushes by the empty production 0 without end; at the end there may be no action.
fn pushing(r: &mut Random, c: &mut Case, n: usize) {
    c.table.extend([3, 2, 1, 1, 2, 0, 0, 1, 2]);
    c.table.extend([1024, r.of(&[1, 1024]), 2]);
    c.table.extend([r.of(&[0, 4096]), 1, 0]);
    c.table.extend([1024, 1024, 2]);
    c.input.resize(n, 1);
}

fn huge_foreign(r: &mut Random, c: &mut Case, spare: &mut Vec<u16>, n: usize) {
    foreign(r, spare);
    while spare[1] < 2 {
        foreign(r, spare);
    }
    c.table.extend(&spare[..]);
    let t = spare[1] as usize;
    c.input.extend((0..n).map(|_| r.between(1, t - 1) as u8));
}
