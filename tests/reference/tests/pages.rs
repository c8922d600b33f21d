//! Pages written out, their sizes at the limits of lines and pages, and cells read back.

use reference::pages::{cell, pages, row_lines, value, Sight, COLUMNS, LINES};
use reference::program::printed;
use reference::random::Random;

/// A list with these sizes, whose entries before the cells are 9, and these cells.
fn table(states: usize, width: usize, productions: usize, cells: &[u16]) -> Vec<u16> {
    let sizes = [states, width / 2, width - width / 2, productions].map(|size| size as u16);
    [&sizes[..], &vec![9; 2 * productions + states], cells].concat()
}

/// The lines of pages without the blanks behind them; each has all its columns.
fn lines(table: &[u16]) -> Vec<String> {
    let text = String::from_utf8(pages(table)).expect("text");
    let lines: Vec<&str> = text.split_terminator('\n').collect();
    assert_eq!(text.len(), lines.iter().map(|line| line.len() + 1).sum());
    assert_eq!(lines.len() % LINES, 0);
    assert!(lines.iter().all(|line| line.len() == COLUMNS));
    lines.iter().map(|line| line.trim_end().to_string()).collect()
}

/// The same up to the last line that is not blank.
fn written(table: &[u16]) -> Vec<String> {
    let mut lines = lines(table);
    lines.truncate(lines.iter().rposition(|line| !line.is_empty()).map_or(0, |last| last + 1));
    lines
}

const A: &[u8] = b"3 1 2 3 3 3 2 1 3 1 2";

#[test]
fn card_a() {
    let page = String::from_utf8(printed(A, pages)).expect("text");
    let rows = "   0     0     0     1     2                                            \n\
                \x20  1  1025  1025     0     0                                            \n\
                \x20  2  4096     3     0     0                                            \n\
                \x20  3  1024  1024     0     0                                            \n";
    assert_eq!(page, format!("{rows}{}", format!("{:72}\n", "").repeat(56)));
}

#[test]
fn refusals_are_not_on_pages() {
    assert_eq!(printed(b"2 1 2 3 2 2 2 1 2 2 1", pages), b"refused 13 3 1 1 1024\n");
    assert_eq!(printed(b"3 1 2", pages), b"refused 4\n");
    assert_eq!(printed(b"three", pages), b"not a card\n");
}

#[test]
fn lines_of_a_row() {
    let row = |width: usize| written(&table(1, width, 2, &(1..=200).collect::<Vec<u16>>()));
    let first = "   0     1     2     3     4     5     6     7     8     9    10    11";
    let second = "        12    13    14    15    16    17    18    19    20    21    22";
    assert_eq!(row(1), [&first[..10]]);
    assert_eq!(row(10), [&first[..64]]);
    assert_eq!(row(11), [first]);
    assert_eq!(row(12), [first, &second[..10]]);
    assert_eq!(row(22), [first, second]);
    assert_eq!(row(23), [first, second, "        23"]);
    assert_eq!(row(124).len(), 12);
    assert_eq!(row(124)[11], "       122   123   124".to_string());
}

#[test]
fn lines_of_pages() {
    let count = |states, width| lines(&table(states, width, 0, &[])).len();
    assert_eq!([count(0, 5), count(5, 0), count(0, 0)], [0, 0, 0]);
    assert_eq!([count(1, 2), count(59, 11), count(60, 11), count(61, 11)], [60, 60, 60, 120]);
    assert_eq!([count(5, 124), count(30, 12), count(31, 12)], [60, 60, 120]);
    assert_eq!([count(120, 3), count(121, 3), count(256, 124)], [120, 180, 52 * 60]);
    assert_eq!(pages(&table(256, 124, 128, &[])).len(), 227_760);
}

#[test]
fn places_past_the_end_are_0() {
    assert!(pages(&[]).is_empty() && pages(&[7]).is_empty());
    assert_eq!(written(&[1, 0, 2]), ["   0     0     0"]);
    assert_eq!(written(&[2, 1, 1, 1, 8, 8, 9, 9, 5]), ["   0     5     0", "   1     0     0"]);
}

#[test]
fn a_state_of_five_digits_moves_its_line() {
    let text = |width: usize| {
        let all = pages(&table(10_001, width, 0, &vec![65_535; 10_001 * width]));
        let first = 10_000 * row_lines(width) * (COLUMNS + 1);
        String::from_utf8(all[first - COLUMNS - 1..].to_vec()).expect("text")
    };
    let last = |cells| format!("{:72}", format!("10000{}", " 65535".repeat(cells)));
    let narrow = text(2);
    let found: Vec<&str> = narrow.split('\n').take(2).collect();
    assert_eq!(found[0], format!("{:72}", "9999 65535 65535"));
    assert_eq!(found[1], last(2));
    let wide = text(12);
    let found: Vec<&str> = wide.split('\n').skip(1).take(2).collect();
    assert_eq!(found[0], format!("{}  ", last(11).trim_end()));
    assert_eq!(found[0].len(), 73);
    assert_eq!(found[1], format!("{:72}", "     65535"));
}

#[test]
fn every_cell_is_read_back() {
    let mut random = Random::new(1);
    let mut cells = 0;
    for _ in 0..300 {
        let (states, width) = (random.between(1, 150), random.between(1, 130));
        let all: Vec<u16> = (0..states * width).map(|_| random.draw() as u16).collect();
        let table = table(states, width, random.between(0, 20), &all);
        let pages = pages(&table);
        let sight = Sight::new(&pages);
        for (which, &right) in all.iter().enumerate() {
            let (state, symbol) = (which / width, which % width);
            assert_eq!(value(&table, state, symbol), right);
            assert_eq!(cell(&pages, width, state, symbol), Some(right));
            assert_eq!(sight.cell(state, symbol), Some(right));
        }
        assert_eq!([cell(&pages, width, states, 0), sight.cell(states, 0)], [None; 2]);
        cells += all.len();
    }
    assert!(cells > 500_000, "{cells}");
}

/// Changes one column of card A's page; says what both readers find in state 1, symbol 0.
fn changed(line: usize, column: usize, byte: u8) -> [Option<u16>; 2] {
    let mut page = printed(A, pages);
    page[(COLUMNS + 1) * line + column] = byte;
    [cell(&page, 4, 1, 0), Sight::new(&page).cell(1, 0)]
}

#[test]
fn readers_tell_what_is_no_cell() {
    assert_eq!(changed(1, 4, b' '), [Some(1025); 2]);
    assert_eq!(changed(1, 9, b'6'), [Some(1026); 2]);
    assert_eq!(changed(1, 9, b' '), [None; 2]);
    assert_eq!(changed(1, 5, b'x'), [None; 2]);
    assert_eq!(changed(1, 5, b'+'), [None; 2]);
    assert_eq!(changed(1, 4, b'9'), [None; 2]);
    assert_eq!(changed(1, 71, b'\n'), [None, Some(1025)]);
    assert_eq!(changed(1, 72, b' '), [None, Some(1025)]);
    assert_eq!(changed(1, 3, b'7'), [Some(1025), None]);
    assert_eq!(changed(3, 3, b'1'), [Some(1025), None]);
    let twelve = pages(&table(2, 12, 0, &[5; 24]));
    assert_eq!(Sight::new(&twelve).cell(0, 11), Some(5));
    let mut other = twelve.clone();
    other[COLUMNS + 1 + 3] = b'9';
    assert_eq!([cell(&other, 12, 0, 11), Sight::new(&other).cell(0, 11)], [Some(5), None]);
}
