//! The logger: plain strings in, for each a line with its verdict and its numbers, and a
//! further line for each record.

use std::io::{self, Read, Write};

use crate::hamming::Verdict;
use crate::host::{self, Numbers};
use crate::refusal::Refusal;
use crate::scaled::Scaled;
use crate::station::record::STRINGS_OF_A_RECORD;
use crate::stream::answer_each;
use crate::string::BYTES;
use crate::words::{self, kinds::kinds_of};

type PlainString = [u8; BYTES];

pub fn answer_stream(input: impl Read, output: impl Write) -> io::Result<()> {
    let mut logger = Logger::default();
    answer_each(input, output, |string| logger.lines(string))
}

#[derive(Default)]
struct Logger {
    /// String 1 and those that came right after it, string by string, none refused.
    in_turn: Vec<PlainString>,
}

impl Logger {
    /// The last line has no line feed.
    fn lines(&mut self, string: &PlainString) -> String {
        match line_of_taken(string) {
            Ok((m, line)) => line + &self.record_after(m, string),
            Err(refusal) => {
                self.in_turn.clear();
                refusal.to_string()
            }
        }
    }

    /// The line that string 4 brings where 1, 2 and 3 have come right before it.
    fn record_after(&mut self, m: usize, string: &PlainString) -> String {
        if m != self.in_turn.len() + 1 {
            self.in_turn.clear();
        }
        if m == self.in_turn.len() + 1 {
            self.in_turn.push(*string);
        }
        let [first, second, third, fourth] = &self.in_turn[..] else {
            return String::new();
        };
        let record = host::record([first, second, third, fourth]);
        let numbers = record.expect("four strings that were taken").scaled;
        self.in_turn.clear();
        format!("\nrecord{}", written(&numbers))
    }
}

/// m and the line, which has no numbers for strings 1 to 4: those come with the record.
fn line_of_taken(string: &PlainString) -> Result<(usize, String), Refusal> {
    let (verdict, checked) = words::checked(string)?;
    let m = checked.m();
    let numbers = numbers_of(m, string)?;
    let verdict = match verdict {
        Verdict::Clean => String::from("clean"),
        Verdict::Repaired { bit } => format!("repaired {bit}"),
    };
    let numbers = match STRINGS_OF_A_RECORD.contains(&m) {
        true => String::new(),
        false => written(&numbers.scaled),
    };
    Ok((m, format!("string {m} {verdict}{numbers}")))
}

/// String 14 is read as an almanac half, by whose words it can be refused, and as frame 5's.
fn numbers_of(m: usize, string: &PlainString) -> Result<Numbers, Refusal> {
    let mut numbers = Numbers::default();
    for kind in kinds_of(m) {
        numbers.read(kind, string)?;
    }
    Ok(numbers)
}

fn written(numbers: &[(&str, Scaled)]) -> String {
    let number = |(name, value): &(&str, Scaled)| format!(" {name}={value}");
    numbers.iter().map(number).collect()
}
