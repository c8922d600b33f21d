//! The call with samples by rounds, with a fault on demand. It is not part of the
//! reference: it shows that faults are found, and it stands in where no archive is linked.

use std::cell::OnceCell;

use reference::answer::{answer, Method};
use reference::card::{parse, Card};
use reference::grammar::{productive, useless};
use reference::sample::{Samples, MOST};
use reference::shortest::Length;

use super::rounds::{Found, Rounds};

/// What is tested before anything is written; in the right order.
#[derive(Clone, Copy, PartialEq, Eq)]
pub enum Test {
    Area,
    Form,
    Useless,
    Production,
    Long,
}

use Test::{Area, Form, Long, Production, Useless};

/// What is wrong; `FAULTS` has the words.
#[derive(Clone, Copy, PartialEq, Eq)]
pub enum Fault {
    None,
    // Another production.
    Best,
    First,
    Last,
    NextOf,
    Moved(i64),
    // Other strings, in the rounds.
    FirstKept,
    FirstString,
    FirstContext,
    FewestSteps,
    BeforeTwice,
    BehindTwice,
    Rounds(usize),
    Levels(usize),
    FirstPlace,
    LastPlace,
    StartBelow,
    EmptyLeftOut,
    UnitLeftOut,
    LastLeftOut,
    LastNonterminal,
    LastSymbol,
    Sums8,
    Parts(usize),
    InnerFirst,
    OuterFirst,
    // Other strings, behind the rounds.
    Shortest,
    ShortestIfAsLong,
    NoContext,
    NoBefore,
    NoBehind,
    ContextAlone,
    Swapped,
    OwnFirst,
    OwnLast,
    Backwards,
    OwnBackwards,
    BeforeBackwards,
    BehindBackwards,
    Twice,
    TwoExchanged,
    FirstAgain,
    LastAgain,
    Other,
    Lower,
    Symbols5,
    EndMarker,
    // Other limits and orders.
    Tested(Test, usize),
    Untested(Test),
    AreaAtLeast(usize),
    AreaBits(u32),
    AreaAsNeeded,
    CardBits,
    NumberBits(u32),
    Signed,
    ProductionsMore(i64),
    ByNonterminals,
    BySymbols,
    ByLimit,
    Most(usize),
    LengthBits(u32),
    Capped,
    OwnAlone,
    AroundAlone,
    AsMaker(u64),
    EmptyRefused,
    // What is told.
    Exchanged(u64, u64),
    Value(u64, u64),
    NoNonterminal,
    NonterminalFromZero,
    NonterminalLast,
    UnproductiveFirst,
    LeastTold,
    CountTold,
    LengthMore(i64),
    NoLength,
    RoomTold,
    StepsTold,
    Turned,
    Unwritten(usize),
    // What is left.
    RestKept,
    RestFrom(usize),
    RestTo(usize),
    OneZero,
    LastKept,
    RestAll,
    RestWith(u8),
    AtEnd,
    AtEndOfArea,
    FromSecond,
    LastByte,
    ClearedFirst,
    WrittenAfter(u64),
    Before,
    BeforeAnswer,
    CardWritten,
}

/// What shows a fault without the reference, by calls for small cards that have samples.
#[derive(Clone, Copy, PartialEq, Eq)]
pub enum Seen {
    /// Nothing: such calls are answered with a right sample.
    Numbers,
    /// The list of all short sentences.
    Listed,
    /// That, and the reader by a table of the maker's: it refuses the sample, or its list
    /// lacks the production.
    Both,
}

use Seen::{Both, Listed, Numbers};

pub const FAULTS: [(&str, Fault, Seen); 134] = [
    ("the best production of its left side", Fault::Best, Both),
    ("the first production of its left side", Fault::First, Both),
    ("the last production of its left side", Fault::Last, Both),
    ("the next production of its left side", Fault::NextOf, Both),
    ("the production before it", Fault::Moved(-1), Both),
    ("the production behind it", Fault::Moved(1), Both),
    ("the first string found kept", Fault::FirstKept, Listed),
    ("the first string found by any derivation kept", Fault::FirstString, Listed),
    ("the first context found kept", Fault::FirstContext, Listed),
    ("the fewest steps", Fault::FewestSteps, Listed),
    ("terminals before counted twice", Fault::BeforeTwice, Listed),
    ("terminals behind counted twice", Fault::BehindTwice, Listed),
    ("one round", Fault::Rounds(1), Listed),
    ("two rounds", Fault::Rounds(2), Listed),
    ("ten rounds", Fault::Rounds(10), Numbers),
    ("no context but of the start's productions", Fault::Levels(1), Listed),
    ("contexts of at most five productions", Fault::Levels(5), Numbers),
    ("contexts of at most 57 productions", Fault::Levels(57), Numbers),
    ("contexts through the first nonterminal alone", Fault::FirstPlace, Listed),
    ("contexts through the last nonterminal alone", Fault::LastPlace, Listed),
    ("a start that recurs has a context", Fault::StartBelow, Listed),
    ("empty productions left out", Fault::EmptyLeftOut, Listed),
    ("unit productions left out", Fault::UnitLeftOut, Listed),
    ("the last production left out", Fault::LastLeftOut, Listed),
    ("productions of the last nonterminal left out", Fault::LastNonterminal, Listed),
    ("the last symbol of right sides left out", Fault::LastSymbol, Both),
    ("sums of 8 bits", Fault::Sums8, Numbers),
    ("parts of at most 254 terminals", Fault::Parts(254), Numbers),
    ("parts of at most 127 terminals", Fault::Parts(127), Numbers),
    ("terminals before from the inside out", Fault::InnerFirst, Both),
    ("terminals behind from the outside in", Fault::OuterFirst, Both),
    ("the shortest sentence", Fault::Shortest, Both),
    ("the shortest sentence where it is as long", Fault::ShortestIfAsLong, Both),
    ("no context", Fault::NoContext, Both),
    ("no terminals before", Fault::NoBefore, Both),
    ("no terminals behind", Fault::NoBehind, Both),
    ("the context alone", Fault::ContextAlone, Both),
    ("before and behind swapped", Fault::Swapped, Both),
    ("the production's own part first", Fault::OwnFirst, Both),
    ("the production's own part last", Fault::OwnLast, Both),
    ("the sample backwards", Fault::Backwards, Both),
    ("the production's own part backwards", Fault::OwnBackwards, Both),
    ("terminals before backwards", Fault::BeforeBackwards, Both),
    ("terminals behind backwards", Fault::BehindBackwards, Both),
    ("a production with its left side on the right twice", Fault::Twice, Listed),
    ("the first two terminals exchanged", Fault::TwoExchanged, Both),
    ("the first terminal twice", Fault::FirstAgain, Both),
    ("the first terminal in place of the last", Fault::LastAgain, Both),
    ("another last terminal", Fault::Other, Both),
    ("terminals counted from 0", Fault::Lower, Both),
    ("terminals of 5 bits", Fault::Symbols5, Numbers),
    ("the end marker behind the sample", Fault::EndMarker, Both),
    ("47 after 4 to 9", Fault::Tested(Area, 1), Numbers),
    ("47 after 10", Fault::Tested(Area, 2), Numbers),
    ("47 after 48", Fault::Tested(Area, 3), Numbers),
    ("47 last", Fault::Tested(Area, 4), Numbers),
    ("48 before all", Fault::Tested(Production, 0), Numbers),
    ("48 before 4 to 9", Fault::Tested(Production, 1), Numbers),
    ("48 before 10", Fault::Tested(Production, 2), Numbers),
    ("49 before 10", Fault::Tested(Long, 2), Numbers),
    ("10 last", Fault::Tested(Useless, 4), Numbers),
    ("47 not tested", Fault::Untested(Area), Numbers),
    ("10 not tested", Fault::Untested(Useless), Numbers),
    ("48 not tested", Fault::Untested(Production), Numbers),
    ("an area of 254 bytes taken", Fault::AreaAtLeast(254), Numbers),
    ("47 for an area of 255 bytes", Fault::AreaAtLeast(256), Listed),
    ("47 for an area of 256 bytes", Fault::AreaAtLeast(257), Listed),
    ("the area's length in 8 bits", Fault::AreaBits(8), Listed),
    ("the area's length in 16 bits", Fault::AreaBits(16), Numbers),
    ("47 only where the sample does not fit", Fault::AreaAsNeeded, Numbers),
    ("the card's length in 16 bits", Fault::CardBits, Numbers),
    ("the production in 8 bits", Fault::NumberBits(8), Numbers),
    ("the production in 16 bits", Fault::NumberBits(16), Numbers),
    ("the production in 32 bits", Fault::NumberBits(32), Numbers),
    ("the production in 63 bits", Fault::NumberBits(63), Numbers),
    ("the production as a signed number", Fault::Signed, Numbers),
    ("48 for the last production", Fault::ProductionsMore(-1), Listed),
    ("production P taken", Fault::ProductionsMore(1), Numbers),
    ("48 from N on", Fault::ByNonterminals, Listed),
    ("48 from L on", Fault::BySymbols, Listed),
    ("48 from 128 on", Fault::ByLimit, Numbers),
    ("254 terminals as the limit", Fault::Most(254), Numbers),
    ("256 terminals as the limit", Fault::Most(256), Numbers),
    ("lengths of 8 bits", Fault::LengthBits(8), Numbers),
    ("lengths of 16 bits", Fault::LengthBits(16), Numbers),
    ("lengths of 32 bits", Fault::LengthBits(32), Numbers),
    ("255 in place of more", Fault::Capped, Numbers),
    ("49 by the production's own part alone", Fault::OwnAlone, Numbers),
    ("49 by the context alone", Fault::AroundAlone, Numbers),
    ("11 as the maker", Fault::AsMaker(11), Numbers),
    ("12 as the maker", Fault::AsMaker(12), Numbers),
    ("13 as the maker", Fault::AsMaker(13), Listed),
    ("an empty sample refused", Fault::EmptyRefused, Listed),
    ("47 and 48 exchanged", Fault::Exchanged(47, 48), Numbers),
    ("47 and 49 exchanged", Fault::Exchanged(47, 49), Numbers),
    ("48 and 49 exchanged", Fault::Exchanged(48, 49), Numbers),
    ("a value told with 4", Fault::Value(4, 4), Numbers),
    ("a value told with 47", Fault::Value(47, 255), Numbers),
    ("a value told with 49", Fault::Value(49, 256), Numbers),
    ("10 without its nonterminal", Fault::NoNonterminal, Numbers),
    ("10 with nonterminals from 0", Fault::NonterminalFromZero, Numbers),
    ("10 with the last nonterminal", Fault::NonterminalLast, Numbers),
    ("10 with what derives nothing before what is not reached", Fault::UnproductiveFirst, Numbers),
    ("the least length told with 49", Fault::LeastTold, Numbers),
    ("P told with 48", Fault::CountTold, Numbers),
    ("a length of one less", Fault::LengthMore(-1), Both),
    ("a length of one more", Fault::LengthMore(1), Both),
    ("no length", Fault::NoLength, Both),
    ("the area's length told", Fault::RoomTold, Both),
    ("the number of steps told", Fault::StepsTold, Both),
    ("number and value exchanged", Fault::Turned, Both),
    ("the number not written where it is 0", Fault::Unwritten(0), Listed),
    ("the value not written where it is 0", Fault::Unwritten(1), Both),
    ("bytes behind the sample kept", Fault::RestKept, Numbers),
    ("the byte behind the sample kept", Fault::RestFrom(1), Numbers),
    ("the last of 255 bytes kept", Fault::RestTo(254), Numbers),
    ("256 bytes written", Fault::RestTo(256), Numbers),
    ("one zero behind the sample", Fault::OneZero, Numbers),
    ("the last terminal not written", Fault::LastKept, Both),
    ("zeros to the end of the area", Fault::RestAll, Numbers),
    ("ones behind the sample", Fault::RestWith(1), Numbers),
    ("255 behind the sample", Fault::RestWith(255), Numbers),
    ("the sample at the end of 255 bytes", Fault::AtEnd, Both),
    ("the sample at the end of the area", Fault::AtEndOfArea, Both),
    ("the sample from the second byte on", Fault::FromSecond, Both),
    ("the last byte of the area zero", Fault::LastByte, Numbers),
    ("the area cleared before the checks", Fault::ClearedFirst, Numbers),
    ("zeros, then 10", Fault::WrittenAfter(10), Numbers),
    ("zeros, then 47", Fault::WrittenAfter(47), Numbers),
    ("zeros, then 48", Fault::WrittenAfter(48), Numbers),
    ("zeros, then 49", Fault::WrittenAfter(49), Numbers),
    ("a byte before the area written", Fault::Before, Numbers),
    ("a number before the answer written", Fault::BeforeAnswer, Numbers),
    ("the card written", Fault::CardWritten, Numbers),
];

/// A call with a fault or with none.
struct Call<'a> {
    card: &'a [u16],
    production: u64,
    room: usize,
    fault: Fault,
    /// The sample, once it was looked for.
    found: OnceCell<Option<Vec<u8>>>,
}

/// The lower bits of a number.
fn lower(number: u64, bits: u32) -> u64 {
    number & (u64::MAX >> (64 - bits))
}

impl Call<'_> {
    fn numbers(&self) -> &[u16] {
        match self.fault {
            Fault::CardBits => &self.card[..self.card.len() % 65_536],
            _ => self.card,
        }
    }

    /// A size of the card, 0 past its end.
    fn size(&self, which: usize) -> u64 {
        self.card.get(which).map_or(0, |&size| size.into())
    }

    /// The production as it is read.
    fn named(&self) -> u64 {
        match self.fault {
            Fault::NumberBits(bits) => lower(self.production, bits),
            Fault::Signed if self.production >> 63 == 1 => 0,
            _ => self.production,
        }
    }

    /// What a test refuses.
    fn test(&self, test: Test) -> Option<[u64; 2]> {
        let refused = match test {
            _ if self.fault == Fault::Untested(test) => false,
            Area => self.short(),
            Form => return parse(self.numbers()).err().map(|number| [number, 0]),
            Useless => {
                let nonterminal = self.useless(&parse(self.numbers()).ok()?)?;
                return Some([10, nonterminal as u64]);
            }
            Production => self.named() >= self.productions(),
            Long => return self.long(),
        };
        refused.then_some([if test == Area { 47 } else { 48 }, 0])
    }

    fn short(&self) -> bool {
        match self.fault {
            Fault::AreaAtLeast(least) => self.room < least,
            Fault::AreaBits(bits) => lower(self.room as u64, bits) < MOST as u64,
            Fault::AreaAsNeeded => self.room < self.found().as_ref().map_or(MOST, Vec::len),
            _ => self.room < MOST,
        }
    }

    fn useless(&self, card: &Card) -> Option<usize> {
        match self.fault {
            Fault::UnproductiveFirst => {
                let productive = productive(card);
                let unproductive = (card.terminals..card.symbols()).find(|&s| !productive[s]);
                unproductive.or_else(|| useless(card))
            }
            _ => useless(card),
        }
    }

    /// From which number on there is no production.
    fn productions(&self) -> u64 {
        let p = self.size(2);
        match self.fault {
            Fault::ProductionsMore(more) => p.saturating_add_signed(more),
            Fault::ByNonterminals => p.min(self.size(1)),
            Fault::BySymbols => p.min(self.size(3)),
            Fault::ByLimit => 128,
            _ => p,
        }
    }

    /// A card without a fault of form, and one of its productions.
    fn valid(&self) -> Option<(Card, usize)> {
        let card = parse(self.numbers()).ok()?;
        let last = card.productions.len() - 1;
        let named = self.named();
        match self.fault {
            Fault::ProductionsMore(_) | Fault::ByLimit | Fault::Untested(Production) => {}
            _ if named > last as u64 => return None,
            _ => {}
        }
        Some((card, named.min(last as u64) as usize))
    }

    /// 49, or a refusal of the maker's.
    fn long(&self) -> Option<[u64; 2]> {
        self.valid()?;
        if let Fault::AsMaker(number) = self.fault {
            let made = answer(self.numbers(), Method::Spreading).map_or(0, |made| made.out()[0]);
            if made == number {
                return Some([number, 0]);
            }
        }
        let empty = |sample: &Vec<u8>| self.fault == Fault::EmptyRefused && sample.is_empty();
        self.found().as_ref().is_none_or(empty).then_some([49, 0])
    }

    /// The sample; none if it is too long, or if there is no such card or production.
    fn found(&self) -> &Option<Vec<u8>> {
        let found = || self.valid().and_then(|(card, which)| self.sample(&card, which));
        self.found.get_or_init(found)
    }

    /// The first refusal.
    fn refusal(&self) -> Option<[u64; 2]> {
        let mut order = vec![Area, Form, Useless, Production, Long];
        if let Fault::Tested(test, place) = self.fault {
            order.retain(|&other| other != test);
            order.insert(place, test);
        }
        order.into_iter().find_map(|test| self.test(test))
    }

    /// The production for which a sample is looked for.
    fn instead(&self, card: &Card, which: usize) -> usize {
        let left = card.productions[which].0;
        let mut own = (0..card.productions.len()).filter(|&p| card.productions[p].0 == left);
        match self.fault {
            Fault::Best => {
                let samples = Samples::new(card);
                own.min_by_key(|&p| samples.least(p)).unwrap_or(which)
            }
            Fault::First => own.next().unwrap_or(which),
            Fault::Last => own.last().unwrap_or(which),
            Fault::NextOf => own.find(|&p| p > which).unwrap_or(which),
            Fault::Moved(by) => {
                let moved = which.saturating_add_signed(by as isize);
                moved.min(card.productions.len() - 1)
            }
            _ => which,
        }
    }

    /// The sample for a production; none if it is too long.
    fn sample(&self, card: &Card, which: usize) -> Option<Vec<u8>> {
        let which = self.instead(card, which);
        let rounds = Rounds::new(card, which, self.fault);
        let Some(found) = rounds.using() else { return self.longer(card, which) };
        let shortest = rounds.sentence().map_or(vec![], |found| found.own.clone());
        let sample = match self.fault {
            Fault::Shortest => shortest,
            Fault::ShortestIfAsLong if shortest.len() == found.len() => shortest,
            Fault::Twice => rounds.twice(found),
            _ => changed(self.put_together(found), card, self.fault),
        };
        let fits = match self.fault {
            Fault::Most(most) => found.len() <= most,
            Fault::OwnAlone => found.own.len() <= MOST,
            Fault::AroundAlone => found.before.len() + found.behind.len() <= MOST,
            _ => found.len() <= MOST,
        };
        if fits {
            Some(sample)
        } else {
            self.longer(card, which)
        }
    }

    /// The parts of a sample, one behind the other.
    fn put_together(&self, found: &Found) -> Vec<u8> {
        let Found { before, own, behind, .. } = found;
        let back = |part: &[u8]| part.iter().rev().copied().collect::<Vec<u8>>();
        match self.fault {
            Fault::NoContext => own.clone(),
            Fault::NoBefore => [&own[..], behind].concat(),
            Fault::NoBehind => [&before[..], own].concat(),
            Fault::ContextAlone => [&before[..], behind].concat(),
            Fault::Swapped => [&behind[..], own, before].concat(),
            Fault::OwnFirst => [&own[..], before, behind].concat(),
            Fault::OwnLast => [&before[..], behind, own].concat(),
            Fault::Backwards => back(&[&before[..], own, behind].concat()),
            Fault::OwnBackwards => [&before[..], &back(own), behind].concat(),
            Fault::BeforeBackwards => [&back(before), &own[..], behind].concat(),
            Fault::BehindBackwards => [&before[..], own, &back(behind)].concat(),
            _ => [&before[..], own, behind].concat(),
        }
    }

    /// What is made of a sample that is too long.
    fn longer(&self, card: &Card, which: usize) -> Option<Vec<u8>> {
        let of_bits = |bits| {
            let least = Samples::new(card).least(which) % (1u128 << bits);
            (least <= MOST as Length).then(|| vec![1; least as usize])
        };
        match self.fault {
            Fault::LengthBits(bits) => of_bits(bits),
            Fault::Capped => Some(vec![1; MOST]),
            _ => None,
        }
    }

    /// Writes a sample, as much of it as there is room for.
    fn put(&self, sample: &[u8], area: &mut [u8]) {
        let (room, length) = (area.len(), sample.len());
        let cleared = match self.fault {
            Fault::RestKept => 0..0,
            Fault::RestFrom(more) => length + more..MOST,
            Fault::RestTo(end) => 0..end,
            Fault::OneZero => length..length + 1,
            Fault::RestAll => 0..room,
            _ => 0..MOST,
        };
        let byte = if let Fault::RestWith(byte) = self.fault { byte } else { 0 };
        let count = cleared.end.saturating_sub(cleared.start);
        area.iter_mut().skip(cleared.start).take(count).for_each(|place| *place = byte);
        let from = match self.fault {
            Fault::AtEnd => MOST.saturating_sub(length),
            Fault::AtEndOfArea => room.saturating_sub(length),
            Fault::FromSecond => 1,
            _ => 0,
        };
        let kept = usize::from(self.fault == Fault::LastKept && length > 0);
        let places = area.iter_mut().skip(from);
        places.zip(&sample[..length - kept]).for_each(|(place, &terminal)| *place = terminal);
        if let (Fault::LastByte, Some(last)) = (self.fault, area.last_mut()) {
            *last = 0;
        }
    }

    /// What else is written that must not be.
    fn harm(&self, area: &mut [u8], out: &mut [u64; 2], answer: u64) {
        // SAFETY: none but that these numbers stand in memory that can be written.
        unsafe {
            match self.fault {
                Fault::Before => area.as_mut_ptr().sub(1).write_volatile(0),
                Fault::BeforeAnswer => out.as_mut_ptr().sub(1).write_volatile(0),
                Fault::CardWritten if !self.card.is_empty() => {
                    self.card.as_ptr().cast_mut().write_volatile(!self.card[0]);
                }
                _ => {}
            }
        }
        if self.fault == Fault::WrittenAfter(answer) {
            area.iter_mut().take(MOST).for_each(|place| *place = 0);
        }
    }

    /// What is told, where this is right or the fault's refusal.
    fn told(&self, [number, value]: [u64; 2]) -> [u64; 2] {
        let searched = || self.valid().expect("a card and a production");
        match (self.fault, number) {
            (Fault::Exchanged(one, two), _) if number == one || number == two => {
                [one + two - number, value]
            }
            (Fault::Value(with, other), _) if number == with => [number, other],
            (Fault::NoNonterminal, 10) => [10, 0],
            (Fault::NonterminalFromZero, 10) => [10, value - self.size(0)],
            (Fault::NonterminalLast, 10) => [10, self.size(0) + self.size(1) - 1],
            (Fault::LeastTold, 49) => {
                let (card, which) = searched();
                [49, Samples::new(&card).least(which).min(1 << 60) as u64]
            }
            (Fault::CountTold, 48) => [48, self.size(2)],
            (Fault::LengthMore(more), 0) => [0, value.wrapping_add_signed(more)],
            (Fault::NoLength, 0) => [0, 0],
            (Fault::RoomTold, 0) => [0, self.room as u64],
            (Fault::StepsTold, 0) => {
                let (card, which) = searched();
                [0, Rounds::new(&card, which, self.fault).steps()]
            }
            (Fault::Turned, _) => [value, number],
            _ => [number, value],
        }
    }
}

/// A sample with a terminal changed, left out or added.
fn changed(mut sample: Vec<u8>, card: &Card, fault: Fault) -> Vec<u8> {
    let highest = card.terminals as u8 - 1;
    match (fault, &mut sample[..]) {
        (Fault::TwoExchanged, [one, two, ..]) => std::mem::swap(one, two),
        (Fault::LastAgain, [first, .., last]) => *last = *first,
        (Fault::Other, [.., last]) => *last = if *last < highest { *last + 1 } else { 1 },
        (Fault::Lower, all) => all.iter_mut().for_each(|terminal| *terminal -= 1),
        (Fault::Symbols5, all) => all.iter_mut().for_each(|terminal| *terminal %= 32),
        (Fault::FirstAgain, [first, ..]) => {
            let first = *first;
            sample.insert(0, first);
        }
        (Fault::EndMarker, _) => sample.push(0),
        _ => {}
    }
    sample
}

/// The C function, with a fault or with none.
pub fn sample(card: &[u16], production: u64, area: &mut [u8], out: &mut [u64; 2], fault: Fault) {
    let call = Call { card, production, room: area.len(), fault, found: OnceCell::new() };
    if fault == Fault::ClearedFirst {
        area.fill(0);
    }
    let answer = call.refusal().unwrap_or_else(|| {
        let sample = call.found().as_deref().unwrap_or_default();
        call.put(sample, area);
        [0, sample.len() as u64]
    });
    call.harm(area, out, answer[0]);
    for (place, number) in call.told(answer).into_iter().enumerate() {
        if fault != Fault::Unwritten(place) || number > 0 {
            out[place] = number;
        }
    }
}

pub fn with(fault: Fault) -> impl Fn(&[u16], u64, &mut [u8], &mut [u64; 2]) {
    move |card, production, area, out| sample(card, production, area, out, fault)
}
