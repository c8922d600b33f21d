//! Numbers and words of answers and refusals.

use crate::{Answer, Refusal};
use std::fmt;

impl Refusal {
    /// The number of the refusal, 21 to 27, 44, 45 or 50.
    pub fn number(self) -> u32 {
        match self {
            Refusal::TableShort => 21,
            Refusal::BadSizes => 22,
            Refusal::BadProduction => 23,
            Refusal::BadCell => 24,
            Refusal::InputLong => 25,
            Refusal::BadTerminal => 26,
            Refusal::NoStack => 27,
            Refusal::BadEntered => 44,
            Refusal::SecondShort => 45,
            Refusal::BadClosed => 50,
        }
    }
}

impl fmt::Display for Refusal {
    fn fmt(&self, f: &mut fmt::Formatter) -> fmt::Result {
        let words = match self {
            Refusal::TableShort => "table too short",
            Refusal::BadSizes => "bad sizes in the table",
            Refusal::BadProduction => "bad production in the table",
            Refusal::BadCell => "bad cell in the table",
            Refusal::InputLong => "input too long",
            Refusal::BadTerminal => "no such terminal",
            Refusal::NoStack => "no stack area",
            Refusal::BadEntered => "bad entering symbol in the table",
            Refusal::SecondShort => "second stack area too short",
            Refusal::BadClosed => "bad word of closed terminals",
        };
        write!(f, "refused {}: {words}", self.number())
    }
}

impl std::error::Error for Refusal {}

impl Answer {
    /// The number of the answer: 0, 21 to 27, 31 to 35, 44 to 46 or 50.
    pub fn number(self) -> u32 {
        match self {
            Answer::Accepted { .. } => 0,
            Answer::Refused { refusal } => refusal.number(),
            Answer::NoAction { .. } => 31,
            Answer::StepLimit { .. } => 32,
            Answer::StackFull { .. } => 33,
            Answer::ListFull { .. } => 34,
            Answer::BadGoto { .. } => 35,
            Answer::ExpectedUnknown { .. } => 46,
        }
    }
}

/// The answer in words. It does not know the word of closed terminals: `wrong at` is said of a closed one, too.
impl fmt::Display for Answer {
    fn fmt(&self, f: &mut fmt::Formatter) -> fmt::Result {
        match self {
            Answer::Accepted { counts } => write!(f, "accepted: steps {}, listed {}", counts.steps, counts.listed),
            Answer::Refused { refusal } => write!(f, "{refusal}"),
            Answer::NoAction { position, expected, counts, .. } => {
                write!(f, "wrong at {position}: steps {}, expected", counts.steps)?;
                (0..64).filter(|m| expected >> m & 1 == 1).try_for_each(|m| write!(f, " {m}"))?;
                f.write_str(if *expected == 0 { " nothing" } else { "" })
            }
            Answer::ExpectedUnknown { position, counts } => {
                write!(f, "wrong at {position}: steps {}, expected unknown (46)", counts.steps)
            }
            Answer::StepLimit { counts }
            | Answer::StackFull { counts }
            | Answer::ListFull { counts }
            | Answer::BadGoto { counts } => {
                let (number, c) = (self.number(), counts);
                write!(f, "stopped {number}: steps {}, stack {}, listed {}", c.steps, c.depth, c.listed)
            }
        }
    }
}

impl std::error::Error for Answer {}
