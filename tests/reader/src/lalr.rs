// A small LALR(1) table generator for the tests and the benchmark: LR(0) states,
// and lookaheads handed on until nothing changes.
use std::collections::{BTreeMap, BTreeSet};

pub struct Grammar {
    pub terminals: usize,
    pub nonterminals: usize,
    pub left: Vec<usize>,
    pub right: Vec<Vec<usize>>,
}

// A production (the last is the added one) and the place of its dot.
type Item = (usize, usize);

struct Maker<'a> {
    g: &'a Grammar,
    start: Vec<usize>,
    nullable: Vec<bool>,
    first: Vec<u64>,
}

impl<'a> Maker<'a> {
    fn new(g: &'a Grammar) -> Maker<'a> {
        let n = g.terminals + g.nonterminals;
        let mut m = Maker {
            g,
            start: vec![g.terminals],
            nullable: vec![false; n],
            first: (0..n).map(|x| if x < g.terminals { 1 << x } else { 0 }).collect(),
        };
        loop {
            let mut changed = false;
            for (&a, right) in g.left.iter().zip(&g.right) {
                let (set, empty) = m.first_of(right);
                changed |= set & !m.first[a] != 0 || empty && !m.nullable[a];
                m.first[a] |= set;
                m.nullable[a] |= empty;
            }
            if !changed {
                return m;
            }
        }
    }

    fn first_of(&self, symbols: &[usize]) -> (u64, bool) {
        let mut set = 0;
        for &x in symbols {
            set |= self.first[x];
            if !self.nullable[x] {
                return (set, false);
            }
        }
        (set, true)
    }

    fn right(&self, p: usize) -> &[usize] {
        self.g.right.get(p).unwrap_or(&self.start)
    }

    // The closure of a kernel with lookaheads.
    fn closure(&self, kernel: &BTreeMap<Item, u64>) -> BTreeMap<Item, u64> {
        let mut all = kernel.clone();
        let mut work: Vec<Item> = all.keys().copied().collect();
        while let Some((p, dot)) = work.pop() {
            let look = all[&(p, dot)];
            let right = self.right(p);
            if dot == right.len() || right[dot] < self.g.terminals {
                continue;
            }
            let (set, empty) = self.first_of(&right[dot + 1..]);
            let set = if empty { set | look } else { set };
            for (r, &a) in self.g.left.iter().enumerate() {
                if a == right[dot] {
                    let new = !all.contains_key(&(r, 0));
                    let old = all.entry((r, 0)).or_insert(0);
                    if new || set & !*old != 0 {
                        *old |= set;
                        work.push((r, 0));
                    }
                }
            }
        }
        all
    }

    // The kernels reached from a state, by symbol in ascending order.
    fn gotos(&self, kernel: &BTreeMap<Item, u64>) -> BTreeMap<usize, BTreeMap<Item, u64>> {
        let mut out: BTreeMap<usize, BTreeMap<Item, u64>> = BTreeMap::new();
        for ((p, dot), look) in self.closure(kernel) {
            if let Some(&x) = self.right(p).get(dot) {
                out.entry(x).or_default().insert((p, dot + 1), look);
            }
        }
        out
    }
}

// The table, or None where it has a conflict or more than 256 states.
pub fn table(g: &Grammar) -> Option<Vec<u16>> {
    let m = Maker::new(g);
    let added = g.left.len();
    let mut states = vec![BTreeMap::from([((added, 0), 1u64)])];
    let mut entered = vec![0];
    let mut cores: BTreeMap<BTreeSet<Item>, usize> = BTreeMap::new();
    cores.insert(states[0].keys().copied().collect(), 0);
    let mut next: Vec<BTreeMap<usize, usize>> = Vec::new();
    let mut q = 0;
    while q < states.len() {
        let mut row = BTreeMap::new();
        for (x, kernel) in m.gotos(&states[q]) {
            let core: BTreeSet<Item> = kernel.keys().copied().collect();
            let to = *cores.entry(core).or_insert(states.len());
            if to == states.len() {
                states.push(kernel);
                entered.push(x as u16);
            }
            row.insert(x, to);
        }
        next.push(row);
        q += 1;
        if states.len() > 256 {
            return None;
        }
    }
    loop {
        let mut changed = false;
        for q in 0..states.len() {
            for (x, kernel) in m.gotos(&states[q]) {
                for (item, look) in kernel {
                    let old = states[next[q][&x]].get_mut(&item).unwrap();
                    changed |= look & !*old != 0;
                    *old |= look;
                }
            }
        }
        if !changed {
            break;
        }
    }
    let mut out: Vec<u16> = [states.len(), g.terminals, g.nonterminals, added].iter().map(|&x| x as u16).collect();
    out.extend(g.left.iter().map(|&x| x as u16));
    out.extend(g.right.iter().map(|r| r.len() as u16));
    out.extend(entered);
    for q in 0..states.len() {
        let mut row = vec![0u16; g.terminals + g.nonterminals];
        for (&x, &to) in &next[q] {
            row[x] = to as u16;
        }
        for ((p, dot), look) in m.closure(&states[q]) {
            if dot < m.right(p).len() {
                continue;
            }
            let value = if p == added { 4096 } else { 1024 + p as u16 };
            for (x, cell) in row.iter_mut().enumerate().take(g.terminals) {
                if look >> x & 1 == 1 {
                    if *cell != 0 {
                        return None;
                    }
                    *cell = value;
                }
            }
        }
        out.extend(row);
    }
    Some(out)
}
