//! Single pairs of cards with their answers and merged cards written out.

use reference::merge::{Merged, Refusal, Which};

use super::pairs::Pair;

pub struct Case {
    pub name: String,
    pub first: Vec<u16>,
    pub second: Vec<u16>,
    /// As in `Pair`.
    pub second_at: Option<usize>,
    /// The areas that it is tried with.
    pub rooms: Vec<usize>,
    pub expected: Merged,
}

impl Case {
    /// The pairs that it is tried as.
    pub fn pairs(&self) -> impl Iterator<Item = Pair> + '_ {
        self.rooms.iter().map(|&room| Pair {
            first: self.first.clone(),
            second: self.second.clone(),
            room,
            second_at: self.second_at,
        })
    }
}

/// S -> S 1, S -> 2.
const A: [u16; 11] = [3, 1, 2, 3, 3, 3, 2, 1, 3, 1, 2];
/// S -> 1 B, B -> empty, B -> 2 B.
const B: [u16; 14] = [3, 2, 3, 4, 3, 4, 4, 2, 0, 2, 1, 4, 2, 4];
/// C -> 2, S -> B C, B -> empty, S -> 1, C -> C 1 2.
const C: [u16; 21] = [3, 3, 5, 7, 5, 3, 4, 3, 5, 1, 2, 0, 1, 3, 2, 4, 5, 1, 5, 1, 2];
/// S -> empty, among three terminals and with the end marker alone.
const EMPTY: [u16; 6] = [3, 1, 1, 0, 3, 0];
const BARE: [u16; 6] = [1, 1, 1, 0, 1, 0];
/// S -> 1 with T 2.
const TWO: [u16; 7] = [2, 1, 1, 1, 2, 1, 1];

/// A merged with itself.
const TWICE: [u16; 24] = [3, 3, 6, 8, 3, 3, 4, 4, 5, 5, 1, 1, 2, 1, 2, 1, 4, 5, 4, 1, 2, 5, 1, 2];

/// Two cards and what is expected, in some areas.
fn case(name: &str, first: &[u16], second: &[u16], rooms: &[usize], expected: Merged) -> Case {
    Case {
        name: name.into(),
        first: first.to_vec(),
        second: second.to_vec(),
        second_at: None,
        rooms: rooms.to_vec(),
        expected,
    }
}

/// Two cards and the merged one, in an area of just its length and in longer ones.
fn merged(name: &str, first: &[u16], second: &[u16], numbers: &[u16]) -> Case {
    let need = numbers.len();
    case(name, first, second, &[need, need + 1, 800], Ok(numbers.to_vec()))
}

fn small() -> Vec<Case> {
    let a_with_b =
        [3, 4, 7, 9, 3, 3, 4, 4, 5, 6, 6, 1, 1, 2, 1, 2, 0, 2, 4, 5, 4, 1, 2, 1, 6, 2, 6];
    let b_with_a =
        [3, 4, 7, 9, 3, 3, 4, 5, 5, 6, 6, 1, 1, 2, 0, 2, 2, 1, 4, 6, 1, 5, 2, 5, 6, 1, 2];
    let a_with_c = [
        [3, 5, 9, 12].as_slice(),
        &[3, 3, 4, 4, 7, 5, 6, 5, 7],
        &[1, 1, 2, 1, 1, 2, 0, 1, 3],
        &[4, 5, 4, 1, 2, 2, 6, 7, 1, 7, 1, 2],
    ];
    let c_with_a = [
        [3, 5, 9, 12].as_slice(),
        &[3, 3, 6, 4, 5, 4, 6, 7, 7],
        &[1, 1, 1, 2, 0, 1, 3, 2, 1],
        &[4, 7, 2, 5, 6, 1, 6, 1, 2, 7, 1, 2],
    ];
    vec![
        merged("A with itself", &A, &A, &TWICE),
        merged("A with B", &A, &B, &a_with_b),
        merged("B with A", &B, &A, &b_with_a),
        merged("A with C", &A, &C, &a_with_c.concat()),
        merged("C with A", &C, &A, &c_with_a.concat()),
    ]
}

/// Several nonterminals in both cards, and merged cards merged again.
fn larger() -> Vec<Case> {
    let c_twice = [
        [3, 7, 12, 16].as_slice(),
        &[3, 3, 6, 4, 5, 4, 6, 9, 7, 8, 7, 9],
        &[1, 1, 1, 2, 0, 1, 3, 1, 2, 0, 1, 3],
        &[4, 7, 2, 5, 6, 1, 6, 1, 2, 2, 8, 9, 1, 9, 1, 2],
    ];
    let again = [
        [3, 5, 10, 13].as_slice(),
        &[3, 3, 4, 4, 5, 5, 6, 6, 7, 7],
        &[1, 1, 1, 1, 2, 1, 2, 1, 2, 1],
        &[4, 7, 5, 6, 5, 1, 2, 6, 1, 2, 7, 1, 2],
    ];
    let third = [
        [3, 5, 10, 13].as_slice(),
        &[3, 3, 4, 4, 5, 5, 6, 6, 7, 7],
        &[1, 1, 2, 1, 1, 1, 2, 1, 2, 1],
        &[4, 5, 4, 1, 2, 6, 7, 6, 1, 2, 7, 1, 2],
    ];
    vec![
        merged("C with itself", &C, &C, &c_twice.concat()),
        merged("a merged card with A", &TWICE, &A, &again.concat()),
        merged("A with a merged card", &A, &TWICE, &third.concat()),
    ]
}

/// Few symbols, few and many terminals, productions alike.
fn odd() -> Vec<Case> {
    let (chained, bare) = ([1, 2, 2, 1, 1, 2, 1, 0, 2], [1, 3, 4, 2, 1, 1, 2, 3, 1, 1, 0, 0, 2, 3]);
    let with_chained = [1, 4, 5, 3, 1, 1, 2, 3, 4, 1, 1, 0, 1, 0, 2, 3, 4];
    let chained_with = [1, 4, 5, 3, 1, 1, 2, 3, 4, 1, 1, 1, 0, 0, 2, 4, 3];
    let (one, two) = ([64, 1, 1, 1, 64, 1, 63], [64, 2, 2, 3, 65, 64, 1, 2, 63, 1, 65]);
    let wide = [64, 4, 5, 6, 64, 64, 65, 67, 66, 1, 1, 1, 1, 2, 65, 66, 63, 63, 1, 67];
    let wide_back = [64, 4, 5, 6, 64, 64, 66, 65, 67, 1, 1, 1, 2, 1, 65, 67, 63, 1, 66, 63];
    let with_empty = [3, 3, 5, 5, 3, 3, 4, 4, 5, 1, 1, 2, 1, 0, 4, 5, 4, 1, 2];
    let empty_with = [3, 3, 5, 5, 3, 3, 4, 5, 5, 1, 1, 0, 2, 1, 4, 5, 5, 1, 2];
    let (twins, cycle) = ([3, 1, 2, 2, 3, 3, 1, 1, 1, 1], [3, 1, 2, 2, 3, 3, 1, 1, 3, 1]);
    let with_twins = [3, 3, 6, 7, 3, 3, 4, 4, 5, 5, 1, 1, 1, 1, 2, 1, 4, 5, 1, 1, 5, 1, 2];
    let cycles = [3, 3, 6, 6, 3, 3, 4, 4, 5, 5, 1, 1, 1, 1, 1, 1, 4, 5, 4, 1, 5, 1];
    let shifted = [2, 3, 4, 4, 2, 2, 3, 4, 1, 1, 1, 1, 3, 4, 1, 1];
    vec![
        merged("no symbols in both", &EMPTY, &EMPTY, &[3, 3, 4, 2, 3, 3, 4, 5, 1, 1, 0, 0, 4, 5]),
        merged("no symbols in the second", &A, &EMPTY, &with_empty),
        merged("no symbols in the first", &EMPTY, &A, &empty_with),
        merged("1 terminal", &BARE, &BARE, &bare),
        merged("1 terminal, two nonterminals in the second", &BARE, &chained, &with_chained),
        merged("1 terminal, two nonterminals in the first", &chained, &BARE, &chained_with),
        merged("2 terminals", &TWO, &TWO, &shifted),
        merged("64 terminals", &one, &two, &wide),
        merged("64 terminals, the other way about", &two, &one, &wide_back),
        merged("productions alike", &twins, &A, &with_twins),
        merged("cycles", &cycle, &cycle, &cycles),
    ]
}

/// Cards that share memory.
fn shared() -> Vec<Case> {
    let useless = [3, 2, 2, 2, 3, 4, 1, 1, 1, 1];
    let of_first = |number, value| Err(Refusal::Card(Which::First, number, value));
    let two = [2, 3, 4, 4, 2, 2, 3, 4, 1, 1, 1, 1, 3, 4, 1, 1];
    let one_slice = |case: Case| Case { second_at: Some(0), ..case };
    vec![
        one_slice(merged("A with itself, one slice", &A, &A, &TWICE)),
        one_slice(merged("T 2 with itself, one slice", &TWO, &TWO, &two)),
        one_slice(case("one slice of nothing", &[], &[], &[0, 30], of_first(4, 0))),
        one_slice(case("10 in one slice", &useless, &useless, &[0, 30], of_first(10, 4))),
        one_slice(case("one slice, a short area", &A, &A, &[0, 23], Err(Refusal::Area))),
        // The last three numbers of A are its first three.
        Case { second_at: Some(8), ..merged("slices that overlap", &A, &A, &TWICE) },
    ]
}

/// Numbers from one to another, both included.
fn run(from: usize, to: usize) -> Vec<u16> {
    (from..=to).map(|number| number as u16).collect()
}

fn sizes(sizes: [usize; 4]) -> Vec<u16> {
    sizes.map(|size| size as u16).to_vec()
}

/// So many nonterminals, each the next, the last one a terminal.
fn chain(n: usize) -> Vec<u16> {
    [sizes([3, n, n, n]), run(3, n + 2), vec![1; n], run(4, n + 2), vec![1]].concat()
}

/// So many empty productions.
fn many(p: usize) -> Vec<u16> {
    [sizes([3, 1, p, 0]), vec![3; p], vec![0; p]].concat()
}

/// One production of so many terminals.
fn long(l: usize) -> Vec<u16> {
    [sizes([3, 1, 1, l]), vec![3, l as u16], vec![1; l]].concat()
}

/// A chain of n, p - n productions of the start more, and all other symbols in the first
/// of these.
fn full(n: usize, p: usize, l: usize) -> Vec<u16> {
    let lengths = [vec![1; n], vec![(l - n) as u16], vec![0; p - n - 1]].concat();
    let symbols = [run(4, n + 2), vec![1], vec![2; l - n]].concat();
    [sizes([3, n, p, l]), run(3, n + 2), vec![3; p - n], lengths, symbols].concat()
}

const TOO_LARGE: Merged = Err(Refusal::Card(Which::Merged, 5, 0));

/// N about 60.
fn nonterminals() -> Vec<Case> {
    let good = |one: usize, two: usize| {
        let n = one + two;
        let lefts = [vec![3, 3], run(4, n + 3)].concat();
        let first = [vec![4, one as u16 + 4], run(5, one + 3), vec![1]].concat();
        let numbers = [
            sizes([3, n + 1, n + 2, n + 2]),
            lefts,
            vec![1; n + 2],
            first,
            run(one + 5, n + 3),
            vec![1],
        ];
        let name = format!("{one} and {two} nonterminals");
        merged(&name, &chain(one), &chain(two), &numbers.concat())
    };
    let over = |one: usize, two: usize| {
        let name = format!("{one} and {two} nonterminals");
        case(&name, &chain(one), &chain(two), &[0, 100, 400, 772, 800], TOO_LARGE)
    };
    vec![
        good(29, 29),
        good(30, 29),
        good(29, 30),
        good(1, 58),
        good(58, 1),
        over(30, 30),
        over(1, 59),
        over(59, 1),
        over(60, 1),
        over(1, 60),
        over(60, 60),
    ]
}

/// P about 128.
fn productions() -> Vec<Case> {
    let good = |one: usize, two: usize| {
        let p = one + two;
        let lefts = [vec![3, 3], vec![4; one], vec![5; two]].concat();
        let numbers = [sizes([3, 3, p + 2, 2]), lefts, vec![1, 1], vec![0; p], vec![4, 5]];
        let name = format!("{one} and {two} productions");
        merged(&name, &many(one), &many(two), &numbers.concat())
    };
    let over = |one: usize, two: usize| {
        let name = format!("{one} and {two} productions");
        case(&name, &many(one), &many(two), &[0, 100, 400, 772, 800], TOO_LARGE)
    };
    vec![
        good(63, 62),
        good(63, 63),
        good(1, 125),
        good(125, 1),
        over(64, 63),
        over(63, 64),
        over(1, 126),
        over(126, 1),
        over(64, 64),
        over(128, 1),
        over(1, 128),
        over(127, 127),
        over(128, 128),
    ]
}

/// L about 512.
fn symbols() -> Vec<Case> {
    let good = |one: usize, two: usize| {
        let l = one + two;
        let lengths = [1, 1, one as u16, two as u16];
        let numbers = [sizes([3, 3, 4, l + 2]), vec![3, 3, 4, 5], lengths.to_vec(), vec![4, 5]];
        let numbers = [numbers.concat(), vec![1; l]].concat();
        merged(&format!("{one} and {two} symbols"), &long(one), &long(two), &numbers)
    };
    let over = |one: usize, two: usize| {
        let name = format!("{one} and {two} symbols");
        case(&name, &long(one), &long(two), &[0, 100, 524, 525, 772, 800], TOO_LARGE)
    };
    vec![
        good(255, 254),
        good(255, 255),
        good(0, 510),
        good(510, 0),
        over(256, 255),
        over(255, 256),
        over(0, 511),
        over(511, 0),
        over(256, 256),
        over(512, 0),
        over(0, 512),
        over(512, 512),
    ]
}

/// All three at their limits, and one of them over it.
fn all_limits() -> Vec<Case> {
    let (one, two) = (full(30, 63, 255), full(29, 63, 255));
    let lefts = [vec![3, 3], run(4, 33), vec![4; 33], run(34, 62), vec![34; 34]];
    let lengths = [vec![1; 32], vec![225], vec![0; 32], vec![1; 29], vec![226], vec![0; 33]];
    let first = [vec![4, 34], run(5, 33), vec![1], vec![2; 225]];
    let second = [run(35, 62), vec![1], vec![2; 226]];
    let parts = [lefts.concat(), lengths.concat(), first.concat(), second.concat()];
    let largest = [sizes([3, 60, 128, 512]), parts.concat()].concat();
    let over = |name, other: &[u16]| case(name, &one, other, &[0, 772, 1_600], TOO_LARGE);
    vec![
        case("60, 128 and 512", &one, &two, &[772, 773, 1_000, 70_000], Ok(largest)),
        case("60, 128 and 512 in less", &one, &two, &[0, 770, 771], Err(Refusal::Area)),
        over("61, 128 and 512", &full(30, 63, 255)),
        over("60, 129 and 512", &full(29, 64, 255)),
        over("60, 128 and 513", &full(29, 63, 256)),
    ]
}

/// Areas for A with itself, which has 24 numbers.
fn areas() -> Vec<Case> {
    let short = [0, 1, 3, 4, 11, 22, 23];
    let more = [24, 25, 26, 47, 48, 771, 772, 773, 2_000, 65_535, 65_536, 65_539, 65_560];
    let one_long = long(255);
    vec![
        case("short areas", &A, &A, &short, Err(Refusal::Area)),
        case("areas that are long enough", &A, &A, &more, Ok(TWICE.to_vec())),
        case("a short area, N 60", &chain(30), &chain(29), &[0, 186], Err(Refusal::Area)),
        case("a short area, P 128", &many(63), &many(63), &[0, 261], Err(Refusal::Area)),
        case("a short area, L 512", &one_long, &one_long, &[0, 523], Err(Refusal::Area)),
    ]
}

/// A card with a fault, the number of its refusal and what is told with it.
pub type Bad = (&'static str, u64, u64, Vec<u16>);

/// Cards that 4 to 6 refuse.
pub fn bad_sizes() -> Vec<Bad> {
    let behind = |count: usize| [A.to_vec(), vec![1; count]].concat();
    vec![
        ("no number", 4, 0, vec![]),
        ("one number", 4, 0, vec![3]),
        ("three numbers", 4, 0, vec![3, 1, 2]),
        ("no terminal", 5, 0, vec![0, 1, 1, 0, 0, 0]),
        ("65 terminals", 5, 0, vec![65, 1, 1, 0, 65, 0]),
        ("no nonterminal", 5, 0, vec![3, 0, 1, 0, 3, 0]),
        ("61 nonterminals", 5, 0, vec![3, 61, 1, 0, 3, 0]),
        ("no production", 5, 0, vec![3, 1, 0, 0]),
        ("129 productions", 5, 0, vec![3, 1, 129, 0]),
        ("513 symbols", 5, 0, long(513)),
        ("highest sizes", 5, 0, vec![65_535; 4]),
        ("one number short", 6, 0, A[..10].to_vec()),
        ("sizes alone", 6, 0, A[..4].to_vec()),
        ("one number more", 6, 0, behind(1)),
        ("773 numbers", 6, 0, behind(762)),
        ("65,536 numbers more", 6, 0, behind(65_536)),
    ]
}

/// Cards that 7 to 10 refuse.
pub fn bad_productions() -> Vec<Bad> {
    vec![
        ("a terminal on the left", 7, 0, vec![3, 1, 1, 1, 2, 1, 1]),
        ("a left side past the last", 7, 0, vec![3, 1, 1, 1, 4, 1, 1]),
        ("lengths that add up to more", 8, 0, vec![3, 1, 1, 1, 3, 2, 1]),
        ("lengths that add up to less", 8, 0, vec![3, 1, 1, 1, 3, 0, 1]),
        ("lengths that add up in 16 bits", 8, 0, vec![3, 1, 2, 0, 3, 3, 65_535, 1]),
        ("symbol 0", 9, 0, vec![3, 1, 1, 1, 3, 1, 0]),
        ("a symbol past the last", 9, 0, vec![3, 1, 1, 1, 3, 1, 4]),
        ("the start derives nothing", 10, 3, vec![3, 1, 1, 1, 3, 1, 3]),
        ("not reached", 10, 4, vec![3, 2, 2, 2, 3, 4, 1, 1, 1, 1]),
        ("derives nothing", 10, 4, vec![3, 2, 3, 3, 3, 3, 4, 1, 1, 1, 4, 1, 4]),
        ("no production for it", 10, 5, vec![3, 3, 3, 3, 3, 3, 4, 1, 1, 1, 4, 5, 1]),
        // 4 is not reached, 5 derives nothing.
        ("two that are of no use", 10, 4, vec![3, 3, 4, 4, 3, 3, 4, 5, 1, 1, 1, 1, 1, 5, 1, 5]),
    ]
}

/// Each fault in the first card, in the second, and beside another T.
fn refused() -> Vec<Case> {
    let bad = [bad_sizes(), bad_productions()].concat();
    let each = bad.into_iter().flat_map(|(name, number, value, card)| {
        let told = |which| Err(Refusal::Card(which, number, value));
        let named = |words: &str| format!("{name} in the {words}");
        let rooms = &[0, 30, 900];
        [
            case(&named("first card"), &card, &A, rooms, told(Which::First)),
            case(&named("second card"), &A, &card, rooms, told(Which::Second)),
            case(&named("second card, behind C"), &C, &card, rooms, told(Which::Second)),
            case(&named("first card, T other"), &card, &TWO, rooms, told(Which::First)),
            case(&named("second card, T other"), &TWO, &card, rooms, told(Which::Second)),
        ]
    });
    each.collect()
}

/// One fault in the first card and one in the second: each with each.
fn both_refused() -> Vec<Case> {
    let all = [bad_sizes(), bad_productions()].concat();
    let one_each = || (4..=10).map(|number| all.iter().find(|bad| bad.1 == number));
    let pairs = one_each().flat_map(|first| one_each().map(move |second| (first, second)));
    let case = |(first, second): (Option<&Bad>, Option<&Bad>)| {
        let ((_, number, value, card), (_, other, _, second)) = (first?, second?);
        let name = format!("{number} in the first, {other} in the second");
        let told = Err(Refusal::Card(Which::First, *number, *value));
        Some(case(&name, card, second, &[0, 40], told))
    };
    pairs.filter_map(case).collect()
}

/// Which refusal comes first.
fn orders() -> Vec<Case> {
    let terminals = || Err(Refusal::Terminals);
    let second = |number| Err(Refusal::Card(Which::Second, number, 0));
    let (wide, wider) = ([63, 1, 1, 1, 63, 1, 62], [64, 1, 1, 1, 64, 1, 62]);
    let useless_two = [2, 2, 2, 2, 2, 3, 1, 1, 1, 1];
    let of_second = Err(Refusal::Card(Which::Second, 10, 3));
    let over = [3, 1, 1, 1, 3, 1, 4];
    let rooms = &[0, 20, 21, 40, 900];
    vec![
        case("T 3 and 2", &A, &TWO, rooms, terminals()),
        case("T 2 and 3", &TWO, &A, rooms, terminals()),
        case("T 1 and 3", &BARE, &EMPTY, rooms, terminals()),
        case("T 3 and 1", &EMPTY, &BARE, rooms, terminals()),
        case("T 63 and 64", &wide, &wider, rooms, terminals()),
        case("T 64 and 63", &wider, &wide, rooms, terminals()),
        case("53 before 5 by N", &TWO, &chain(60), &[0, 900], terminals()),
        case("53 before 5 by P", &TWO, &many(128), &[0, 900], terminals()),
        case("53 before 5 by L", &long(512), &TWO, &[0, 900], terminals()),
        case("53 before 54", &A, &TWO, &[0], terminals()),
        case("10 of the second before 53", &A, &useless_two, rooms, of_second),
        case("9 of the second before 53", &TWO, &over, rooms, second(9)),
        case("5 of the second, not of the merged card", &chain(60), &long(513), &[0], second(5)),
        case("6 of the second before 5", &chain(60), &chain(60)[..100], &[0, 900], second(6)),
        case("5 before 54", &chain(60), &chain(60), &[0, 400], TOO_LARGE),
        case("6 of the second before 54", &A, &A[..9], &[0, 5], second(6)),
    ]
}

pub fn cases() -> Vec<Case> {
    let merged = [small(), larger(), odd(), shared(), areas()];
    let limits = [nonterminals(), productions(), symbols(), all_limits()];
    let refused = [refused(), both_refused(), orders()];
    merged.into_iter().chain(limits).chain(refused).flatten().collect()
}
