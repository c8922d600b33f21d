//! The maker and the reader under test, one behind the other: a card's table, and lines
//! read by it.

use reference::answer::{TABLE_LENGTH, WORK2_LENGTH, WORK_LENGTH};

use crate::abi;

/// Places for the reading of a line, and its steps.
const STACK: usize = 2_000;
const STEPS: u64 = 20_000;

/// The maker's areas.
pub struct Maker {
    table: Vec<u16>,
    work: Vec<u64>,
    work2: Vec<u32>,
}

impl Maker {
    pub fn new() -> Maker {
        let (table, work) = (vec![0; TABLE_LENGTH], vec![0; WORK_LENGTH]);
        Maker { table, work, work2: vec![0; WORK2_LENGTH] }
    }

    /// The number of the answer for a card, and its first value.
    pub fn answer(&mut self, card: &[u16]) -> [u64; 2] {
        let out = abi::generate(card, &mut self.table, &mut self.work, &mut self.work2);
        [out[0], out[1]]
    }

    /// What a line's reading by the table lists, if it is accepted; nothing where it ran out.
    pub fn read(&self, line: &[u8]) -> Option<Option<Vec<u16>>> {
        let [mut stack, mut list, mut second] = [0; 3].map(|_| vec![0; STACK]);
        let publisher = abi::TESTED.publisher;
        let out = publisher(&self.table, line, &mut stack, &mut list, &mut second, STEPS);
        match out[0] {
            0 => Some(Some(list[..out[3] as usize].to_vec())),
            32..=34 => None,
            _ => Some(None),
        }
    }
}
