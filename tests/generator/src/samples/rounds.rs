//! Samples by rounds, with a fault on demand: every round tries every production, until no
//! string is shortened. It is not part of the reference.

use reference::card::Card;
use reference::sample::MOST;

use super::faults::Fault;

/// A string of terminals that was found: what is before the production's own part, that
/// part, and what is behind it. Without the production all is its own part.
#[derive(Clone, Default)]
pub struct Found {
    pub before: Vec<u8>,
    pub own: Vec<u8>,
    pub behind: Vec<u8>,
    /// How many steps it takes, and how many of them lead to the production.
    steps: usize,
    levels: usize,
}

impl Found {
    pub fn len(&self) -> usize {
        self.before.len() + self.own.len() + self.behind.len()
    }
}

/// The strings found so far for each symbol: by any derivation, and by one that uses the
/// production.
pub struct Rounds<'a> {
    card: &'a Card,
    production: usize,
    fault: Fault,
    any: Vec<Option<Found>>,
    using: Vec<Option<Found>>,
    /// The start's by a derivation that leads to the production below its first step.
    below: Option<Found>,
}

impl<'a> Rounds<'a> {
    /// All rounds.
    pub fn new(card: &'a Card, production: usize, fault: Fault) -> Rounds<'a> {
        let own = |s| Found { own: vec![s as u8], ..Found::default() };
        let any = (0..card.symbols()).map(|s| card.is_terminal(s).then(|| own(s))).collect();
        let using = vec![None; card.symbols()];
        let mut rounds = Rounds { card, production, fault, any, using, below: None };
        let most = if let Fault::Rounds(most) = fault { most } else { usize::MAX };
        let mut made = 0;
        while made < most && rounds.round() {
            made += 1;
        }
        rounds
    }

    /// The shortest sentence, and the shortest with a derivation that uses the production.
    pub fn sentence(&self) -> Option<&Found> {
        self.any[self.card.start()].as_ref()
    }

    pub fn using(&self) -> Option<&Found> {
        let start = self.card.start();
        let recurs = self.card.productions.iter().any(|(_, right)| right.contains(&start));
        match self.fault {
            Fault::StartBelow if recurs => self.below.as_ref(),
            _ => self.using[start].as_ref(),
        }
    }

    /// The steps of the sample.
    pub fn steps(&self) -> u64 {
        self.using().map_or(0, |found| found.steps as u64)
    }

    /// The sample with the production once more, where its left side is on the right, too.
    pub fn twice(&self, found: &Found) -> Vec<u8> {
        let (left, right) = &self.card.productions[self.production];
        let again = right.iter().position(|symbol| symbol == left).and_then(|place| {
            self.around(right, place, &Found { own: found.own.clone(), ..Found::default() })
        });
        let again = again.filter(|more| found.len() + more.len() <= MOST + found.own.len());
        let own = again.map_or(found.own.clone(), |o| [o.before, o.own, o.behind].concat());
        [&found.before[..], &own, &found.behind].concat()
    }

    /// What is to be least.
    fn cost(&self, found: &Found) -> usize {
        match self.fault {
            Fault::FewestSteps => found.steps,
            Fault::BehindTwice => found.len() + found.behind.len(),
            Fault::BeforeTwice => found.len() + found.before.len(),
            _ => found.len(),
        }
    }

    /// A string that is better than what is known, or the first one; `kept` where the first
    /// one stays.
    fn better(&self, known: &Option<Found>, new: &Found, kept: Fault) -> bool {
        match known {
            None => true,
            Some(_) if self.fault == kept || self.fault == Fault::FirstKept => false,
            Some(old) => self.cost(new) < self.cost(old),
        }
    }

    /// A string of so many terminals would not be better.
    fn hopeless(&self, known: &Option<Found>, length: usize) -> bool {
        let by_others =
            matches!(self.fault, Fault::FewestSteps | Fault::BehindTwice | Fault::BeforeTwice);
        !by_others && known.as_ref().is_some_and(|old| old.len() <= length)
    }

    /// How many terminals the strings of some symbols have together, as far as it matters.
    fn length(&self, symbols: &[usize]) -> Option<usize> {
        let mut sum = 0;
        for &symbol in symbols {
            sum += self.any[symbol].as_ref()?.len();
        }
        match self.fault {
            Fault::Sums8 => Some(sum % 256),
            Fault::Parts(most) => (sum <= most).then_some(sum),
            _ => (sum <= MOST + 1).then_some(sum),
        }
    }

    /// The strings of some symbols, one behind the other; none if they are too long.
    fn joined(&self, symbols: &[usize]) -> Option<Found> {
        let length = self.length(symbols)?;
        let mut joined = Found { steps: 1, ..Found::default() };
        for &symbol in symbols {
            let part = self.any[symbol].as_ref()?;
            joined.own.extend(&part.own);
            joined.steps += part.steps;
        }
        joined.own.truncate(length);
        Some(joined)
    }

    /// A production that is not tried.
    fn left_out(&self, number: usize) -> bool {
        let (left, right) = &self.card.productions[number];
        let others = || self.card.productions.iter().filter(|(other, _)| other == left).count() > 1;
        match self.fault {
            _ if number == self.production => false,
            Fault::EmptyLeftOut => right.is_empty() && others(),
            Fault::UnitLeftOut => right.len() == 1 && !self.card.is_terminal(right[0]) && others(),
            Fault::LastLeftOut => number + 1 == self.card.productions.len() && others(),
            Fault::LastNonterminal => left + 1 == self.card.symbols() && others(),
            _ => false,
        }
    }

    /// Tries each production; whether a string was shortened.
    fn round(&mut self) -> bool {
        let mut shorter = false;
        for number in 0..self.card.productions.len() {
            if !self.left_out(number) {
                shorter |= self.whole(number) | self.through(number);
            }
        }
        shorter
    }

    /// The string of a right side.
    fn whole(&mut self, number: usize) -> bool {
        let (left, right) = &self.card.productions[number];
        let end = right.len() - usize::from(self.fault == Fault::LastSymbol && right.len() > 1);
        let Some(length) = self.length(&right[..end]) else { return false };
        let named = number == self.production;
        if self.hopeless(&self.any[*left], length)
            && !(named && !self.hopeless(&self.using[*left], length))
        {
            return false;
        }
        let Some(found) = self.joined(&right[..end]) else { return false };
        let mut shorter = false;
        if named && self.better(&self.using[*left], &found, Fault::FirstContext) {
            self.using[*left] = Some(found.clone());
            shorter = true;
        }
        if self.better(&self.any[*left], &found, Fault::FirstString) {
            self.any[*left] = Some(found);
            shorter = true;
        }
        shorter
    }

    /// The places of a right side through which the production is looked for.
    fn places(&self, right: &[usize]) -> Vec<usize> {
        let nonterminal = |&place: &usize| !self.card.is_terminal(right[place]);
        let mut places: Vec<usize> = (0..right.len()).filter(nonterminal).collect();
        match self.fault {
            Fault::FirstPlace => places.truncate(1),
            Fault::LastPlace => drop(places.drain(..places.len().saturating_sub(1))),
            _ => {}
        }
        places
    }

    /// Strings of a right side with the production in one of its symbols.
    fn through(&mut self, number: usize) -> bool {
        let (left, right) = &self.card.productions[number];
        let Some(all) = self.length(right) else { return false };
        let mut shorter = false;
        for place in self.places(right) {
            let Some(inner) = &self.using[right[place]] else { continue };
            let other = self.any[right[place]].as_ref().map_or(0, Found::len);
            let length = (all + inner.len()).saturating_sub(other);
            if length > MOST + 1
                || self.hopeless(&self.using[*left], length)
                || matches!(self.fault, Fault::Levels(most) if inner.levels >= most)
            {
                continue;
            }
            let Some(found) = self.around(right, place, inner) else { continue };
            if self.better(&self.using[*left], &found, Fault::FirstContext) {
                self.using[*left] = Some(found.clone());
                shorter = true;
            }
            if *left == self.card.start() && self.better(&self.below, &found, Fault::FirstContext) {
                self.below = Some(found);
            }
        }
        shorter
    }

    /// A string with what surrounds it in a right side.
    fn around(&self, right: &[usize], place: usize, inner: &Found) -> Option<Found> {
        let before = self.joined(&right[..place])?;
        let behind = self.joined(&right[place + 1..])?;
        let (one, two) = match self.fault {
            Fault::InnerFirst => {
                ([&inner.before[..], &before.own], [&inner.behind[..], &behind.own])
            }
            Fault::OuterFirst => {
                ([&before.own[..], &inner.before], [&behind.own[..], &inner.behind])
            }
            _ => ([&before.own[..], &inner.before], [&inner.behind[..], &behind.own]),
        };
        Some(Found {
            before: one.concat(),
            own: inner.own.clone(),
            behind: two.concat(),
            steps: before.steps + inner.steps + behind.steps - 1,
            levels: inner.levels + 1,
        })
    }
}
