// What bindings/c/sidumza.h says of the lengths to lend, to both calls. One less is not enough: there are cases that need
// all of it.
use crate::cases::{Case, Cases};
use crate::reference::{self, bad_closed, Lent};
use crate::{wrapped, Entry, ENTRIES};
use sidumza::Answer;

// The answer's number and expected set, with so many places in stack and second area.
fn answer(entry: Entry, c: &Case, places: [usize; 2], steps: usize) -> (u32, u64) {
    let ([stack, second], list) = (&mut places.map(|n| vec![0; n]), &mut c.list.clone());
    match wrapped(c, entry, Lent { stack, list, second }, steps as u64) {
        Answer::NoAction { expected, .. } => (31, expected),
        other => (other.number(), 0),
    }
}

fn has_empty(c: &Case) -> bool {
    let productions = c.table[3] as usize;
    c.table[4 + productions..4 + 2 * productions].contains(&0)
}

// How often a case ran, and how often one place or step less was too few.
#[derive(Default)]
struct Counts {
    ran: u64,
    steps: u64,
    places: u64,
    places_without_empty: u64,
    fresh: u64,
    fresh_steps: u64,
    second: u64,
    second_without_empty: u64,
    second_by_limit: u64,
}

impl Counts {
    // The reading itself: input_len + list_len + 1 steps and places, and input_len + 1 places where no production is empty.
    fn reading(&mut self, entry: Entry, c: &Case) -> Result<(), String> {
        let most = c.input.len() + c.list.len() + 1;
        let number = |places: usize, steps: usize| answer(entry, c, [places, places], steps).0;
        let end = number(most, most);
        if end == 32 || end == 33 {
            return Err(format!("{end} with {most} places and steps"));
        }
        self.ran += 1;
        self.steps += (number(most, most - 1) == 32) as u64;
        self.places += (most > 1 && number(most - 1, most) == 33) as u64;
        if has_empty(c) {
            return Ok(());
        }
        let fewer = c.input.len() + 1;
        if number(fewer, most) == 33 {
            return Err(format!("33 with {fewer} places and no empty production"));
        }
        self.places_without_empty += (fewer > 1 && number(fewer - 1, most) == 33) as u64;
        Ok(())
    }

    // The fresh readings, where they reduce no more often than the list has places: input_len + list_len + 1 steps and one
    // place more; input_len + 2 places where no production is empty; and one place more than there are steps, always.
    fn fresh(&mut self, entry: Entry, c: &Case) -> Result<(), String> {
        let most = c.input.len() + c.list.len() + 1;
        let plenty = most + 50;
        let with = |second: usize, steps: usize| answer(entry, c, [1.max(c.input.len()).min(second), second], steps);
        let by_limit = 20;
        if with(by_limit + 1, by_limit) != with(by_limit + 50, by_limit) {
            return Err(format!("{} places are too few for {by_limit} steps", by_limit + 1));
        }
        self.second_by_limit += (with(by_limit, by_limit) != with(by_limit + 50, by_limit)) as u64;
        let mut areas = [vec![0; plenty], c.list.clone(), vec![0; plenty]];
        let [stack, list, second] = &mut areas;
        let closed = entry.closed(c).unwrap_or(0);
        let o = reference::parse(&c.table, &c.input, closed, Lent { stack, list, second }, plenty as u64);
        if o.out[0] != 31 || o.past_list {
            return Ok(());
        }
        self.fresh += 1;
        let places = |second: usize, steps: usize| answer(entry, c, [o.high.min(second), second], steps);
        let right = (31, o.out[5]);
        if places(most + 1, most) != right {
            return Err(format!("46 with {most} steps and a place more"));
        }
        self.fresh_steps += (places(plenty, most - 1) != right) as u64;
        self.second += (places(most, plenty) != right) as u64;
        if !has_empty(c) {
            let fewer = c.input.len() + 2;
            if places(fewer, most) != right {
                return Err(format!("46 with {fewer} places and no empty production"));
            }
            self.second_without_empty += (places(fewer - 1, most) != right) as u64;
        }
        Ok(())
    }

    // Prints it; whether each length was needed.
    fn all(&self, of: &str) -> bool {
        let counts = [
            ("one step less is too few", self.steps),
            ("one place less", self.places),
            ("one place less without empty productions", self.places_without_empty),
            ("one step less for a fresh reading", self.fresh_steps),
            ("one place less for a fresh reading", self.second),
            ("one place less for one without empty productions", self.second_without_empty),
            ("one place less for as many steps", self.second_by_limit),
        ];
        println!("{of}: {} cases, {} of them with fresh readings that the list would hold", self.ran, self.fresh);
        counts.iter().for_each(|(what, many)| println!("{what}: {many}"));
        counts.iter().all(|(_, many)| *many > 0)
    }
}

pub fn enough(seed: u64, count: u64) -> bool {
    let mut cases = Cases::new(seed);
    let mut all = <[Counts; 2]>::default();
    for k in 0..count {
        cases.step();
        let c = &cases.case;
        let refused = answer(Entry::Publisher, c, [1, 1], 0).0;
        if (21..=27).contains(&refused) || refused == 44 {
            continue;
        }
        for (entry, all) in ENTRIES.into_iter().zip(&mut all) {
            if entry.closed(c).is_some_and(|word| bad_closed(word, c.table[1])) {
                continue;
            }
            if let Err(what) = all.reading(entry, c).and_then(|()| all.fresh(entry, c)) {
                println!("case {k} of seed {seed}: {what}");
                return false;
            }
        }
    }
    let [publisher, choir] = all;
    publisher.all("the publisher's call") & choir.all("the choir's")
}
