//! Cards merged by arithmetic on their numbers, with a fault on demand. It is not part of
//! the reference: it shows that faults are found, and it stands in where no archive is
//! linked.

use reference::card::{parse, Card};
use reference::grammar::{productive, useless};

/// What is tested before anything is written.
#[derive(Clone, Copy, PartialEq, Eq)]
pub enum Test {
    First,
    Second,
    Terminals,
    Sizes,
    Area,
}

use Test::{Area, First, Second, Sizes, Terminals};

/// What is wrong; `FAULTS` has the words.
#[derive(Clone, Copy, PartialEq, Eq)]
pub enum Fault {
    None,
    FirstBy(u16),
    SecondMore(i16),
    SecondAsFirst,
    SecondKept,
    SecondByOwn,
    StartLast,
    SecondBefore,
    LeftsKept,
    SymbolsKept,
    FromBelow,
    FromAbove,
    TerminalsMoved,
    BothTo(usize),
    NewBy(i16),
    NewLeft,
    NewAlone(usize),
    NewTogether,
    NewEmpty,
    NewSwapped,
    NewLast,
    NewApart,
    ListsSwapped,
    Interleaved,
    Backwards,
    Swapped(usize),
    NewBehind(usize),
    LastLeftOut,
    LastKept,
    Size(usize, i16),
    Tested(Test, usize),
    FormFirst,
    Lowest,
    UselessTaken(usize),
    UselessMerged,
    Untested(Test),
    TerminalsLess,
    TerminalsMore,
    Limit(usize, i16),
    NoLimit(usize),
    Sizes8,
    AreaMore(usize),
    AreaLess(usize),
    AreaMost,
    Area16,
    Card16(usize),
    NoCard,
    CardsSwapped,
    CardFromZero,
    MergedAs(u64),
    CardWith(u64, u64),
    NoNonterminal,
    MergedNonterminal,
    NonterminalFromZero,
    LastNonterminal,
    UnproductiveFirst,
    NeedTold,
    LengthMore(i64),
    NoLength,
    RoomTold,
    Exchanged,
    Unwritten(usize),
    RestZero,
    OneBehind,
    ClearedFirst,
    WrittenAfter(u64),
    Before,
    BeforeAnswer,
    CardWritten(usize),
    AtEnd,
    FromSecond,
    OneSlice,
}

/// What shows a fault without the reference, by pairs that can be merged.
#[derive(Clone, Copy, PartialEq, Eq)]
pub enum Seen {
    /// Nothing: such pairs are refused or merged as they should, or the merged card has
    /// the same sentences and new productions.
    Numbers,
    /// The maker: it refuses the card by 4 to 10, or by its table lines are read otherwise.
    /// Lines may show it, too, by a pair that seldom comes.
    Maker,
    /// The maker, and the lines: a merged card has other sentences.
    Both,
}

use Seen::{Both, Maker, Numbers};

pub const FAULTS: [(&str, Fault, Seen); 118] = [
    ("the first's nonterminals not moved", Fault::FirstBy(0), Maker),
    ("the first's moved by two", Fault::FirstBy(2), Maker),
    ("the second's moved by N of the first alone", Fault::SecondMore(-1), Maker),
    ("the second's moved by one too many", Fault::SecondMore(1), Maker),
    ("the second's moved as the first's", Fault::SecondAsFirst, Maker),
    ("the second's not moved", Fault::SecondKept, Maker),
    ("the second's moved by its own N", Fault::SecondByOwn, Maker),
    ("the new start behind all nonterminals", Fault::StartLast, Maker),
    ("the second's nonterminals before the first's", Fault::SecondBefore, Numbers),
    ("left sides not moved", Fault::LeftsKept, Maker),
    ("symbols not moved", Fault::SymbolsKept, Maker),
    ("the highest terminal moved, too", Fault::FromBelow, Both),
    ("old starts not moved", Fault::FromAbove, Maker),
    ("terminals moved, too", Fault::TerminalsMoved, Both),
    ("both new productions to the first's start", Fault::BothTo(0), Maker),
    ("both new productions to the second's start", Fault::BothTo(1), Maker),
    ("new productions to one nonterminal too low", Fault::NewBy(-1), Maker),
    ("new productions to one nonterminal too high", Fault::NewBy(1), Maker),
    ("new productions with the old starts on the left", Fault::NewLeft, Maker),
    ("no new production to the second's start", Fault::NewAlone(0), Maker),
    ("no new production to the first's start", Fault::NewAlone(1), Maker),
    ("one new production with both starts", Fault::NewTogether, Both),
    ("new productions without symbols", Fault::NewEmpty, Maker),
    ("the new productions swapped", Fault::NewSwapped, Maker),
    ("the new productions last", Fault::NewLast, Maker),
    ("each new production before those of its card", Fault::NewApart, Maker),
    ("the second's productions before the first's", Fault::ListsSwapped, Numbers),
    ("productions in turn", Fault::Interleaved, Numbers),
    ("productions of each card from the last", Fault::Backwards, Numbers),
    ("left sides of the second before those of the first", Fault::Swapped(0), Both),
    ("lengths of the second before those of the first", Fault::Swapped(1), Both),
    ("symbols of the second before those of the first", Fault::Swapped(2), Both),
    ("new left sides last", Fault::NewBehind(0), Maker),
    ("new lengths last", Fault::NewBehind(1), Both),
    ("new symbols last", Fault::NewBehind(2), Both),
    ("the last production left out", Fault::LastLeftOut, Both),
    ("the last number not written", Fault::LastKept, Maker),
    ("a terminal more", Fault::Size(0, 1), Maker),
    ("the new start not counted", Fault::Size(1, -1), Maker),
    ("the new productions not counted", Fault::Size(2, -2), Maker),
    ("the new symbols not counted", Fault::Size(3, -2), Maker),
    ("the second card checked first", Fault::Tested(Second, 0), Numbers),
    ("53 before the second card's checks", Fault::Tested(Terminals, 1), Numbers),
    ("53 before both cards' checks", Fault::Tested(Terminals, 0), Numbers),
    ("53 after 5", Fault::Tested(Terminals, 3), Numbers),
    ("53 after 54", Fault::Tested(Terminals, 4), Numbers),
    ("5 before the second card's checks", Fault::Tested(Sizes, 1), Numbers),
    ("54 before 5", Fault::Tested(Area, 3), Numbers),
    ("54 before 53", Fault::Tested(Area, 2), Numbers),
    ("54 before the second card's checks", Fault::Tested(Area, 1), Numbers),
    ("54 before both cards' checks", Fault::Tested(Area, 0), Numbers),
    ("4 to 9 of both cards before 10 of the first", Fault::FormFirst, Numbers),
    ("the lower number of both cards", Fault::Lowest, Numbers),
    ("10 of the first card not tested", Fault::UselessTaken(0), Numbers),
    ("10 of the second card not tested", Fault::UselessTaken(1), Numbers),
    ("10 of the merged card alone", Fault::UselessMerged, Numbers),
    ("53 not tested", Fault::Untested(Terminals), Numbers),
    ("53 only where the first has fewer terminals", Fault::TerminalsLess, Numbers),
    ("53 only where the first has more terminals", Fault::TerminalsMore, Numbers),
    ("5 not tested", Fault::Untested(Sizes), Numbers),
    ("54 not tested", Fault::Untested(Area), Numbers),
    ("59 nonterminals as the limit", Fault::Limit(1, -1), Numbers),
    ("61 nonterminals as the limit", Fault::Limit(1, 1), Numbers),
    ("127 productions as the limit", Fault::Limit(2, -1), Numbers),
    ("129 productions as the limit", Fault::Limit(2, 1), Numbers),
    ("130 productions as the limit", Fault::Limit(2, 2), Numbers),
    ("511 symbols as the limit", Fault::Limit(3, -1), Numbers),
    ("513 symbols as the limit", Fault::Limit(3, 1), Numbers),
    ("514 symbols as the limit", Fault::Limit(3, 2), Numbers),
    ("N not limited", Fault::NoLimit(1), Numbers),
    ("P not limited", Fault::NoLimit(2), Numbers),
    ("L not limited", Fault::NoLimit(3), Numbers),
    ("sizes of 8 bits", Fault::Sizes8, Numbers),
    ("54 also for an area of the card's length", Fault::AreaMore(1), Numbers),
    ("54 for an area two places longer", Fault::AreaMore(2), Numbers),
    ("an area one place short taken", Fault::AreaLess(1), Numbers),
    ("an area two places short taken", Fault::AreaLess(2), Numbers),
    ("54 for an area of under 772 places", Fault::AreaMost, Numbers),
    ("the area's length in 16 bits", Fault::Area16, Numbers),
    ("the first card's length in 16 bits", Fault::Card16(0), Numbers),
    ("the second card's length in 16 bits", Fault::Card16(1), Numbers),
    ("no card told", Fault::NoCard, Numbers),
    ("first and second told for each other", Fault::CardsSwapped, Numbers),
    ("cards told from 0", Fault::CardFromZero, Numbers),
    ("5 of the merged card told of none", Fault::MergedAs(0), Numbers),
    ("5 of the merged card told of the first", Fault::MergedAs(1), Numbers),
    ("5 of the merged card told of the second", Fault::MergedAs(2), Numbers),
    ("a card told with 0", Fault::CardWith(0, 3), Numbers),
    ("a card told with 53", Fault::CardWith(53, 2), Numbers),
    ("a card told with 54", Fault::CardWith(54, 3), Numbers),
    ("10 without its nonterminal", Fault::NoNonterminal, Numbers),
    ("10 with the merged card's nonterminal", Fault::MergedNonterminal, Numbers),
    ("10 with nonterminals from 0", Fault::NonterminalFromZero, Numbers),
    ("10 with the last nonterminal", Fault::LastNonterminal, Numbers),
    ("10 with what derives nothing before what is not reached", Fault::UnproductiveFirst, Numbers),
    ("the length told with 54", Fault::NeedTold, Numbers),
    ("a length of one less", Fault::LengthMore(-1), Maker),
    ("a length of one more", Fault::LengthMore(1), Maker),
    ("no length", Fault::NoLength, Maker),
    ("the area's length told", Fault::RoomTold, Maker),
    ("53 and 54 exchanged", Fault::Exchanged, Numbers),
    ("the first number not written where it is 0", Fault::Unwritten(0), Numbers),
    ("the second number not written where it is 0", Fault::Unwritten(1), Numbers),
    ("the third number not written where it is 0", Fault::Unwritten(2), Numbers),
    ("zeros behind the merged card", Fault::RestZero, Numbers),
    ("a zero behind the merged card", Fault::OneBehind, Numbers),
    ("the area cleared before the checks", Fault::ClearedFirst, Numbers),
    ("written, then 5", Fault::WrittenAfter(5), Numbers),
    ("written, then 10", Fault::WrittenAfter(10), Numbers),
    ("written, then 53", Fault::WrittenAfter(53), Numbers),
    ("written as far as there is room, then 54", Fault::WrittenAfter(54), Numbers),
    ("a number before the area written", Fault::Before, Numbers),
    ("a number before the answer written", Fault::BeforeAnswer, Numbers),
    ("the first card written", Fault::CardWritten(0), Numbers),
    ("the second card written", Fault::CardWritten(1), Numbers),
    ("the merged card at the end of the area", Fault::AtEnd, Maker),
    ("the merged card from the second place on", Fault::FromSecond, Maker),
    ("one slice for both taken for one card", Fault::OneSlice, Maker),
];

type Production = (u16, Vec<u16>);

/// A call with a fault or with none.
struct Call<'a> {
    cards: [&'a [u16]; 2],
    room: usize,
    fault: Fault,
}

/// A number moved by so much, up or down.
fn moved(number: u16, by: i16) -> u16 {
    number.wrapping_add_signed(by)
}

impl Call<'_> {
    /// A size of a card, 0 past its end.
    fn size(&self, card: usize, which: usize) -> usize {
        self.cards[card].get(which).map_or(0, |&size| size.into())
    }

    /// T of the first card.
    fn t(&self) -> u16 {
        self.size(0, 0) as u16
    }

    /// A size of the merged card.
    fn merged(&self, which: usize) -> usize {
        self.size(0, which) + self.size(1, which) + [0, 1, 2, 2][which]
    }

    fn need(&self) -> usize {
        4 + 2 * self.merged(2) + self.merged(3)
    }

    /// One of 4 to 10 for one of the cards.
    fn fault_of(&self, which: usize) -> Option<[u64; 3]> {
        let mut numbers = self.cards[which];
        if self.fault == Fault::Card16(which) {
            numbers = &numbers[..numbers.len() % 65_536];
        }
        let told = |number, value| Some([number, 1 + which as u64, value]);
        let card = match parse(numbers) {
            Ok(card) => card,
            Err(number) => return told(number, 0),
        };
        let found = match self.fault {
            Fault::UselessTaken(taken) if taken == which => None,
            Fault::UselessMerged => None,
            Fault::UnproductiveFirst => unproductive(&card).or_else(|| useless(&card)),
            _ => useless(&card),
        };
        found.and_then(|nonterminal| told(10, nonterminal as u64))
    }

    /// What a test refuses.
    fn test(&self, test: Test) -> Option<[u64; 3]> {
        let refused = match test {
            _ if self.fault == Fault::Untested(test) => false,
            First => return self.fault_of(0),
            Second => return self.fault_of(1),
            Terminals => {
                let [one, two] = [self.size(0, 0), self.size(1, 0)];
                match self.fault {
                    Fault::TerminalsLess => one < two,
                    Fault::TerminalsMore => one > two,
                    _ => one != two,
                }
            }
            Sizes => (1..4).any(|which| self.over(which)),
            Area => self.short(),
        };
        let told = match test {
            Terminals => [53, 0, 0],
            Sizes => [5, 3, 0],
            _ => [54, 0, 0],
        };
        refused.then_some(told)
    }

    /// A size of the merged card is over its limit.
    fn over(&self, which: usize) -> bool {
        let size = self.merged(which);
        let limit = [64u16, 60, 128, 512][which];
        match self.fault {
            Fault::Limit(changed, by) if changed == which => size > moved(limit, by).into(),
            Fault::NoLimit(left_out) if left_out == which => false,
            Fault::Sizes8 => size % 256 > limit.into(),
            _ => size > limit.into(),
        }
    }

    fn short(&self) -> bool {
        match self.fault {
            Fault::AreaMore(more) => self.room < self.need() + more,
            Fault::AreaLess(less) => self.room + less < self.need(),
            Fault::AreaMost => self.room < 772,
            Fault::Area16 => self.room % 65_536 < self.need(),
            _ => self.room < self.need(),
        }
    }

    /// The first refusal.
    fn refusal(&self) -> Option<[u64; 3]> {
        let mut order = vec![First, Second, Terminals, Sizes, Area];
        if let Fault::Tested(test, place) = self.fault {
            order.retain(|&other| other != test);
            order.insert(place, test);
        }
        if matches!(self.fault, Fault::FormFirst | Fault::Lowest) {
            match (self.fault_of(0), self.fault_of(1)) {
                (Some([one, ..]), Some(told @ [two, ..]))
                    if two < one && (self.fault == Fault::Lowest || one == 10) =>
                {
                    return Some(told)
                }
                _ => {}
            }
        }
        order.into_iter().find_map(|test| self.test(test)).or_else(|| self.useless_merged())
    }

    /// 10 found in the merged card only.
    fn useless_merged(&self) -> Option<[u64; 3]> {
        if self.fault != Fault::UselessMerged {
            return None;
        }
        let card = parse(&self.written()).expect("of two cards without a fault of form");
        useless(&card).map(|nonterminal| [10, 3, nonterminal as u64])
    }

    /// By how much the nonterminals of each card are moved.
    fn moves(&self) -> [u16; 2] {
        let [one, two] = [self.size(0, 1) as u16, self.size(1, 1) as u16];
        match self.fault {
            Fault::FirstBy(by) => [by, one + 1],
            Fault::SecondMore(more) => [1, moved(one + 1, more)],
            Fault::SecondAsFirst => [1, 1],
            Fault::SecondKept => [1, 0],
            Fault::SecondByOwn => [1, two + 1],
            Fault::StartLast => [0, one],
            Fault::SecondBefore => [two + 1, 1],
            _ => [1, one + 1],
        }
    }

    /// The productions of a card with its nonterminals moved.
    fn own(&self, which: usize, by: u16) -> Vec<Production> {
        let fault = self.fault;
        let from = match fault {
            Fault::FromBelow => self.t() - 1,
            Fault::FromAbove => self.t() + 1,
            Fault::TerminalsMoved => 0,
            _ => self.t(),
        };
        let number = |&symbol: &u16| if symbol < from { symbol } else { symbol.wrapping_add(by) };
        let (numbers, p) = (self.cards[which], self.size(which, 2));
        let mut symbols = numbers[4 + 2 * p..].iter();
        let lengths = numbers[4 + p..4 + 2 * p].iter();
        let all = numbers[4..4 + p].iter().zip(lengths).map(|(left, &length)| {
            let right = symbols.by_ref().take(length.into());
            match fault {
                Fault::LeftsKept => (*left, right.map(number).collect()),
                Fault::SymbolsKept => (number(left), right.copied().collect()),
                _ => (number(left), right.map(number).collect()),
            }
        });
        match fault {
            Fault::Backwards => all.collect::<Vec<_>>().into_iter().rev().collect(),
            _ => all.collect(),
        }
    }

    /// The productions of the new start.
    fn of_new_start(&self) -> Vec<Production> {
        let (t, [one, two]) = (self.t(), [self.size(0, 1) as u16, self.size(1, 1) as u16]);
        let by = match self.fault {
            Fault::StartLast | Fault::SecondBefore => self.moves(),
            Fault::BothTo(0) => [1, 1],
            Fault::BothTo(_) => [one + 1, one + 1],
            Fault::NewBy(more) => [1, one + 1].map(|by| moved(by, more)),
            Fault::NewSwapped => [one + 1, 1],
            _ => [1, one + 1],
        };
        let to = by.map(|by| t + by);
        match self.fault {
            Fault::StartLast => to.map(|to| (t + one + two, vec![to])).to_vec(),
            Fault::NewLeft => to.map(|to| (to, vec![to])).to_vec(),
            Fault::NewAlone(which) => vec![(t, vec![to[which]])],
            Fault::NewTogether => vec![(t, to.to_vec())],
            Fault::NewEmpty => vec![(t, vec![]), (t, vec![])],
            _ => to.map(|to| (t, vec![to])).to_vec(),
        }
    }

    /// The new productions, the first's and the second's.
    fn lists(&self) -> [Vec<Production>; 3] {
        let [one, two] = self.moves();
        let mut lists = [self.of_new_start(), self.own(0, one), self.own(1, two)];
        match self.fault {
            Fault::NewApart => {
                let [new, first, second] = &mut lists;
                second.insert(0, new.pop().expect("two new productions"));
                first.insert(0, new.pop().expect("two new productions"));
            }
            Fault::Interleaved => {
                let second = std::mem::take(&mut lists[2]);
                for (which, production) in second.into_iter().enumerate() {
                    let at = lists[1].len().min(2 * which + 1);
                    lists[1].insert(at, production);
                }
            }
            Fault::LastLeftOut => drop(lists[2].pop()),
            _ => {}
        }
        lists
    }

    /// In which order the lists stand in an array: left sides, lengths or symbols.
    fn order(&self, array: usize) -> [usize; 3] {
        match self.fault {
            Fault::NewLast => [1, 2, 0],
            Fault::ListsSwapped => [0, 2, 1],
            Fault::Swapped(one) if one == array => [0, 2, 1],
            Fault::NewBehind(one) if one == array => [1, 2, 0],
            _ => [0, 1, 2],
        }
    }

    /// The numbers of the merged card.
    fn written(&self) -> Vec<u16> {
        let lists = self.lists();
        let all = |array| self.order(array).into_iter().flat_map(|list| &lists[list]);
        let lefts: Vec<u16> = all(0).map(|(left, _)| *left).collect();
        let lengths: Vec<u16> = all(1).map(|(_, right)| right.len() as u16).collect();
        let symbols: Vec<u16> = all(2).flat_map(|(_, right)| right.clone()).collect();
        let mut sizes = vec![self.size(0, 0), self.merged(1), lefts.len(), symbols.len()];
        if let Fault::Size(which, by) = self.fault {
            sizes[which] = sizes[which].wrapping_add_signed(by.into());
        }
        let sizes = sizes.into_iter().map(|size| size as u16).collect();
        let mut numbers = [sizes, lefts, lengths, symbols].concat();
        if self.fault == Fault::OneSlice && self.cards[0].as_ptr() == self.cards[1].as_ptr() {
            numbers = self.cards[0].to_vec();
        }
        numbers
    }

    /// What is told, where this is right or the fault's refusal.
    fn told(&self, [number, card, value]: [u64; 3]) -> [u64; 3] {
        let own = (4..=10).contains(&number);
        let before = 1 + if card == 2 { self.size(0, 1) as u64 } else { 0 };
        let [t, n] = [0, 1].map(|size| self.size(usize::from(card == 2), size) as u64);
        match (self.fault, number) {
            (Fault::NoCard, _) => [number, 0, value],
            (Fault::CardsSwapped, _) if card == 1 || card == 2 => [number, 3 - card, value],
            (Fault::CardFromZero, _) if own => [number, card - 1, value],
            (Fault::MergedAs(other), _) if card == 3 => [number, other, value],
            (Fault::CardWith(with, other), _) if with == number => [number, other, value],
            (Fault::NoNonterminal, 10) => [number, card, 0],
            (Fault::MergedNonterminal, 10) => [number, card, value + before],
            (Fault::NonterminalFromZero, 10) => [number, card, value - t],
            (Fault::LastNonterminal, 10) => [number, card, t + n - 1],
            (Fault::NeedTold, 54) => [number, card, self.need() as u64],
            (Fault::LengthMore(more), 0) => [number, card, value.wrapping_add_signed(more)],
            (Fault::NoLength, 0) => [number, card, 0],
            (Fault::RoomTold, 0) => [number, card, self.room as u64],
            (Fault::Exchanged, 53 | 54) => [107 - number, card, value],
            _ => [number, card, value],
        }
    }

    /// Writes the merged card, as much of it as there is room for.
    fn put(&self, numbers: &[u16], area: &mut [u16]) {
        let room = area.len().saturating_sub(numbers.len());
        let from = match self.fault {
            Fault::AtEnd => room,
            Fault::FromSecond => room.min(1),
            _ => 0,
        };
        let kept = usize::from(self.fault == Fault::LastKept);
        let numbers = &numbers[..numbers.len() - kept];
        area[from..].iter_mut().zip(numbers).for_each(|(place, &number)| *place = number);
        let behind = area.iter_mut().skip(from + numbers.len() + kept);
        match self.fault {
            Fault::RestZero => behind.for_each(|place| *place = 0),
            Fault::OneBehind => behind.take(1).for_each(|place| *place = 0),
            _ => {}
        }
    }

    /// What else is written that must not be.
    fn harm(&self, area: &mut [u16], out: &mut [u64; 3], answer: u64) {
        // SAFETY: none but that these numbers stand in memory that can be written.
        unsafe {
            match self.fault {
                Fault::Before => area.as_mut_ptr().sub(1).write_volatile(0),
                Fault::BeforeAnswer => out.as_mut_ptr().sub(1).write_volatile(0),
                Fault::CardWritten(which) if !self.cards[which].is_empty() => {
                    let card = self.cards[which];
                    card.as_ptr().cast_mut().write_volatile(!card[0]);
                }
                _ => {}
            }
        }
        let good = || self.cards.iter().all(|numbers| parse(numbers).is_ok());
        if self.fault == Fault::WrittenAfter(answer) && good() {
            self.put(&self.written(), area);
        }
    }
}

/// The lowest nonterminal that derives no string of terminals.
fn unproductive(card: &Card) -> Option<usize> {
    let productive = productive(card);
    (card.terminals..card.symbols()).find(|&nonterminal| !productive[nonterminal])
}

/// The C function, with a fault or with none.
pub fn merge(first: &[u16], second: &[u16], area: &mut [u16], out: &mut [u64; 3], fault: Fault) {
    let call = Call { cards: [first, second], room: area.len(), fault };
    if fault == Fault::ClearedFirst {
        area.fill(0);
    }
    let answer = call.refusal().unwrap_or_else(|| {
        let numbers = call.written();
        call.put(&numbers, area);
        [0, 0, numbers.len() as u64]
    });
    call.harm(area, out, answer[0]);
    for (place, number) in call.told(answer).into_iter().enumerate() {
        if fault != Fault::Unwritten(place) || number > 0 {
            out[place] = number;
        }
    }
}

pub fn with(fault: Fault) -> impl Fn(&[u16], &[u16], &mut [u16], &mut [u64; 3]) {
    move |first, second, area, out| merge(first, second, area, out, fault)
}
