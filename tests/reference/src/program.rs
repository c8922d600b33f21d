//! What the programs over cards share: a card from standard input, and to standard
//! output its refusal, `not a card`, or what the program makes of its table.

use std::io::{Read, Result, Write};

use crate::answer::{reference, Answer};

/// The numbers of the input, nothing if it has another form.
fn numbers(text: &[u8]) -> Option<Vec<u16>> {
    let mut found = Vec::new();
    for word in text.split(|&byte| byte == b' ' || byte == b'\n').filter(|word| !word.is_empty()) {
        if !word.iter().all(u8::is_ascii_digit) || found.len() == 772 {
            return None;
        }
        let digits: Vec<u8> = word.iter().copied().skip_while(|&digit| digit == b'0').collect();
        if digits.len() > 5 {
            return None;
        }
        let value = digits.iter().fold(0u32, |value, digit| 10 * value + u32::from(digit - b'0'));
        found.push(u16::try_from(value).ok()?);
    }
    Some(found)
}

/// Numbers with a blank between them.
pub fn words<T: ToString>(numbers: &[T]) -> String {
    numbers.iter().map(T::to_string).collect::<Vec<_>>().join(" ")
}

/// What is printed for an input.
pub fn printed(text: &[u8], of_table: impl Fn(&[u16]) -> Vec<u8>) -> Vec<u8> {
    let Some(card) = numbers(text) else {
        return b"not a card\n".to_vec();
    };
    match reference(&card, 20_000, true).answer {
        Answer::Refused(number, values) => {
            let all: Vec<u64> = [number].into_iter().chain(values).collect();
            format!("refused {}\n", words(&all)).into_bytes()
        }
        Answer::Table(table) => of_table(&table),
    }
}

/// The program.
pub fn run(of_table: impl Fn(&[u16]) -> Vec<u8>) -> Result<()> {
    let mut text = Vec::new();
    std::io::stdin().read_to_end(&mut text)?;
    std::io::stdout().write_all(&printed(&text, of_table))
}
