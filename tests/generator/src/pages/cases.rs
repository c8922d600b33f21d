//! Single lists of numbers, with their lines written out or some of them.

use reference::pages::{pages as right, COLUMNS, LINES};

pub struct Case {
    pub name: &'static str,
    pub table: Vec<u16>,
    /// The reference's text.
    pub text: Vec<u8>,
    /// The buffers that it is tried with.
    pub rooms: Vec<Room>,
    /// The lines of all pages.
    lines: usize,
    /// Lines by their numbers, without the blanks behind them.
    shown: Vec<(usize, String)>,
}

/// The buffer.
#[derive(Clone, Copy)]
pub enum Room {
    /// So many bytes more than the text has.
    More(usize),
    /// So many less.
    Less(usize),
    /// So many.
    Only(usize),
}

impl Room {
    pub fn bytes(self, text: usize) -> usize {
        match self {
            Room::More(more) => text + more,
            Room::Less(less) => text - less,
            Room::Only(bytes) => bytes,
        }
    }
}

impl Case {
    /// The reference's text has the lines that are written out.
    pub fn holds(&self) -> Result<(), String> {
        let lines: Vec<&[u8]> = self.text.split_inclusive(|&byte| byte == b'\n').collect();
        if lines.len() != self.lines {
            return Err(format!("{} lines, not {}", lines.len(), self.lines));
        }
        for (which, right) in &self.shown {
            let columns = COLUMNS.max(right.len());
            let right = format!("{right:<columns$}\n");
            if lines[*which] != right.as_bytes() {
                let found = String::from_utf8_lossy(lines[*which]);
                return Err(format!("line {which} is {found:?}, not {right:?}"));
            }
        }
        Ok(())
    }
}

/// A list with a buffer that is as long as its text, and with one of a page more.
fn case(name: &'static str, table: Vec<u16>, lines: usize, shown: &[(usize, &str)]) -> Case {
    let shown = shown.iter().map(|&(which, line)| (which, line.to_string())).collect();
    let rooms = vec![Room::More(0), Room::More(LINES * (COLUMNS + 1))];
    Case { name, text: right(&table), table, rooms, lines, shown }
}

/// A table of so many states, terminals, nonterminals and productions, whose cells are
/// given by their number; what stands before them is no cell's.
fn table(sizes: [usize; 4], cell: impl Fn(usize) -> usize) -> Vec<u16> {
    let [states, terminals, nonterminals, productions] = sizes;
    let mut numbers = sizes.to_vec();
    numbers.extend((0..2 * productions + states).map(|place| 50_000 + place % 10_000));
    numbers.extend((0..states * (terminals + nonterminals)).map(cell));
    numbers.into_iter().map(|number| number as u16).collect()
}

/// Cells from 1 on, in the order of their places.
fn counted(sizes: [usize; 4]) -> Vec<u16> {
    table(sizes, |cell| cell + 1)
}

/// Lists with few numbers or none.
fn short() -> Vec<Case> {
    let a = vec![4, 3, 1, 2, 3, 3, 2, 1, 0, 2, 3, 1];
    let cells = [0, 0, 1, 2, 1025, 1025, 0, 0, 4096, 3, 0, 0, 1024, 1024, 0, 0];
    let a = [a, cells.to_vec()].concat();
    let rows = [
        (0, "   0     0     0     1     2"),
        (1, "   1  1025  1025     0     0"),
        (2, "   2  4096     3     0     0"),
        (3, "   3  1024  1024     0     0"),
        (4, ""),
        (59, ""),
    ];
    let cut = [
        rows[0],
        rows[1],
        (2, "   2  4096     0     0     0"),
        (3, "   3     0     0     0     0"),
    ];
    let zeros = [(0, "   0     0     0     0     0"), (3, "   3     0     0     0     0")];
    vec![
        case("no numbers", vec![], 0, &[]),
        case("states alone", vec![7], 0, &[]),
        case("states and terminals", vec![1, 2], 60, &[(0, "   0     0     0"), (1, "")]),
        case("no number of productions", vec![1, 0, 2], 60, &[(0, "   0     0     0")]),
        case("sizes alone", vec![1, 1, 0, 9], 60, &[(0, "   0     0"), (1, "")]),
        case("no states", vec![0, 3, 1, 0, 5, 5], 0, &[]),
        case("no symbols", vec![2, 0, 0, 1, 1, 1, 0, 0, 9], 0, &[]),
        case("card A", a.clone(), 60, &rows),
        case("card A and numbers behind", [a.clone(), vec![7; 9]].concat(), 60, &rows),
        case("card A up to within its cells", a[..21].to_vec(), 60, &cut),
        case("card A up to its cells", a[..12].to_vec(), 60, &zeros),
        case("card A up to within its entering symbols", a[..10].to_vec(), 60, &zeros),
        case("card A up to its sizes", a[..4].to_vec(), 60, &zeros),
    ]
}

/// Cells and rows.
fn rows() -> Vec<Case> {
    let all = [0, 9, 10, 99, 100, 999, 1_000, 9_999, 10_000, 65_535];
    let digits = "   0     0     9    10    99   100   999  1000  9999 10000 65535";
    let first = "   0     1     2     3     4     5     6     7     8     9    10    11";
    let second = "        12    13    14    15    16    17    18    19    20    21    22";
    let rows =
        |name, sizes: [usize; 4], shown: &[(usize, &str)]| case(name, counted(sizes), 60, shown);
    vec![
        case("cells of all lengths", table([1, 9, 1, 3], |c| all[c]), 60, &[(0, digits)]),
        rows("1 symbol", [2, 1, 0, 1], &[(0, "   0     1"), (1, "   1     2"), (2, "")]),
        rows("2 symbols", [2, 1, 1, 1], &[(0, "   0     1     2"), (1, "   1     3     4")]),
        rows("10 symbols", [1, 4, 6, 0], &[(0, &first[..64]), (1, "")]),
        rows("11 symbols", [1, 6, 5, 2], &[(0, first), (1, "")]),
        rows("12 symbols", [2, 6, 6, 2], &[(0, first), (1, &second[..10]), (3, "        24")]),
        rows("22 symbols", [1, 12, 10, 2], &[(0, first), (1, second), (2, "")]),
        rows("23 symbols", [2, 12, 11, 2], &[(0, first), (1, second), (2, "        23")]),
        rows("124 symbols", [2, 64, 60, 9], &[(0, first), (11, "       122   123   124")]),
        rows("no terminals", [1, 0, 11, 3], &[(0, first)]),
        rows("no nonterminals", [1, 11, 0, 3], &[(0, first)]),
    ]
}

/// Whole pages, a line more or less, and rows that the end of a page breaks.
fn pages() -> Vec<Case> {
    let last = |name, sizes: [usize; 4], lines, shown: &[(usize, &str)]| {
        case(name, counted(sizes), lines, shown)
    };
    vec![
        last("59 lines", [59, 1, 1, 2], 60, &[(58, "  58   117   118"), (59, "")]),
        last("60 lines", [60, 1, 1, 2], 60, &[(59, "  59   119   120")]),
        last("61 lines", [61, 1, 1, 2], 120, &[(60, "  60   121   122"), (61, ""), (119, "")]),
        last("5 states of 12 lines", [5, 64, 60, 2], 60, &[(59, "       618   619   620")]),
        last("30 states of 2 lines", [30, 6, 6, 2], 60, &[(58, FIFTY_EIGHT), (59, "       360")]),
        last("31 states of 2 lines", [31, 6, 6, 2], 120, &[(61, "       372"), (62, "")]),
        last("a row on two pages", [7, 50, 49, 2], 120, &[(60, BROKEN), (62, LAST), (63, "")]),
        last("120 lines", [120, 1, 0, 2], 120, &[(100, " 100   101"), (119, " 119   120")]),
        last("121 lines", [121, 1, 0, 2], 180, &[(120, " 120   121"), (121, "")]),
        last("256 states", [256, 2, 1, 128], 300, &[(255, " 255   766   767   768")]),
        last("257 states", [257, 2, 1, 128], 300, &[(256, " 256   769   770   771")]),
        last("1,001 states", [1_001, 1, 0, 5], 1_020, &[(1_000, "1000  1001"), (1_001, "")]),
        last("the largest card's", [256, 64, 60, 128], 3_120, &[(3_071, MOST), (3_072, "")]),
    ]
}

const FIFTY_EIGHT: &str = "  29   349   350   351   352   353   354   355   356   357   358   359";
const BROKEN: &str = "       661   662   663   664   665   666   667   668   669   670   671";
const LAST: &str = "       683   684   685   686   687   688   689   690   691   692   693";
const MOST: &str = "     31742 31743 31744";

/// Buffers that are shorter or longer than the text.
fn rooms() -> Vec<Case> {
    let rooms = [
        ("no room", Room::Only(0)),
        ("room for a byte", Room::Only(1)),
        ("room for the state", Room::Only(4)),
        ("room for a digit", Room::Only(8)),
        ("room for a line without its line feed", Room::Only(72)),
        ("room for a line", Room::Only(73)),
        ("room for a line and a byte", Room::Only(74)),
        ("room for the rows", Room::Only(2 * 73)),
        ("a byte short", Room::Less(1)),
        ("a line short", Room::Less(73)),
        ("a byte more", Room::More(1)),
        ("a line more", Room::More(73)),
        ("much more", Room::More(5_000)),
    ];
    let one =
        |(name, room)| Case { rooms: vec![room], ..case(name, counted([2, 2, 1, 1]), 60, &[]) };
    rooms.into_iter().map(one).collect()
}

/// Sizes beyond those of cards: states of five digits, and numbers over 16 bits.
fn large() -> Vec<Case> {
    let digits = |name, sizes: [usize; 4], lines, shown: &[(usize, &str)]| {
        case(name, table(sizes, |cell| 10_000 + cell % 10), lines, shown)
    };
    let cells = "10000 10001 10002 10003 10004 10005 10006 10007 10008 10009 10000";
    // Eleven cells behind a state of five digits, and the two blanks: 73 columns.
    let wide = format!("10000 {cells}  ");
    vec![
        digits("9,999 states", [9_999, 1, 0, 1], 10_020, &[(9_998, "9998 10008"), (9_999, "")]),
        digits("10,000 states", [10_000, 1, 0, 1], 10_020, &[(9_999, "9999 10009")]),
        digits("10,001 states", [10_001, 1, 0, 1], 10_020, &[(10_000, "10000 10000")]),
        digits("10,001 states of 11 symbols", [10_001, 10, 1, 1], 10_020, &[(10_000, &wide)]),
        digits("10,001 states of 12 symbols", [10_001, 6, 6, 1], 20_040, &[(20_000, &wide)]),
        digits("65,535 productions", [2, 1, 0, 65_535], 60, &[(0, "   0 10000"), (2, "")]),
        digits(
            "40,000 nonterminals",
            [1, 0, 40_000, 1],
            3_660,
            &[(3_636, "     10006 10007 10008 10009")],
        ),
        digits("70,000 symbols", [1, 30_000, 40_000, 1], 6_420, &[(6_363, SEVEN), (6_364, "")]),
    ]
}

const SEVEN: &str = "     10003 10004 10005 10006 10007 10008 10009";

pub fn cases() -> Vec<Case> {
    [short(), rows(), pages(), rooms(), large()].into_iter().flatten().collect()
}
