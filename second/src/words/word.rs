//! One word: the bits where it stands, how they are read, which values are legal.

use crate::refusal::Refusal;
use crate::string::NavString;

#[derive(Clone, Copy, Debug, PartialEq, Eq)]
pub struct Word {
    pub name: &'static str,
    /// Top and lowest bit number.
    pub bits: (usize, usize),
    pub form: Form,
}

/// How a word's bits are read. Units are those of the lowest bit.
#[derive(Clone, Copy, Debug, PartialEq, Eq)]
pub enum Form {
    /// A plain number; whatever the bits hold is legal.
    Plain,
    /// A plain number, legal within these limits only.
    Within { least: i64, greatest: i64 },
    /// Sign and magnitude: "top bit 1 is minus".
    Signed,
    /// "tk is hour (5 bits), minute (6), half minute (1)", as one number.
    TimeOfDay,
    /// H: "0..13, or 25..31 meaning -7..-1 (Table 4.10)".
    Carrier,
}

/// Table 4.10 writes -1 as 31, -2 as 30, down to -7 as 25: 32 is added.
const ADDED_TO_NEGATIVE_CARRIER: i64 = 32;
const LEAST_CODE_OF_NEGATIVE_CARRIER: i64 = 25;

impl Word {
    pub fn top_bit(&self) -> usize {
        self.bits.0
    }

    pub fn width(&self) -> usize {
        self.bits.0 - self.bits.1 + 1
    }

    pub fn holds(&self, bit: usize) -> bool {
        (self.bits.1..=self.bits.0).contains(&bit)
    }

    /// True where some of the codes that its bits can hold are refused.
    pub fn has_range(&self) -> bool {
        !matches!(self.form, Form::Plain | Form::Signed)
    }

    /// The word's value in a string; RANGE if it is out of range.
    pub fn read(&self, string: &NavString) -> Result<i64, Refusal> {
        let value = self.value_in(string);
        self.require_legal(value)?;
        Ok(value)
    }

    /// The value that the word's bits in a string stand for, legal or not.
    pub fn value_in(&self, string: &NavString) -> i64 {
        self.meaning(string.number(self.bits) as i64)
    }

    /// Writes a value into a string; RANGE if it is out of range or does not fit.
    pub fn write(&self, string: &mut NavString, value: i64) -> Result<(), Refusal> {
        self.require_legal(value)?;
        string.set_number(self.bits, self.code(value) as u128);
        Ok(())
    }

    /// The value that these bits stand for, legal or not.
    fn meaning(&self, code: i64) -> i64 {
        match self.form {
            Form::Signed if code >= self.sign_weight() => self.sign_weight() - code,
            Form::Carrier if code >= LEAST_CODE_OF_NEGATIVE_CARRIER => {
                code - ADDED_TO_NEGATIVE_CARRIER
            }
            _ => code,
        }
    }

    /// The bits that stand for a legal value; 0 never gets a minus sign.
    pub fn code(&self, value: i64) -> i64 {
        match self.form {
            Form::Signed if value < 0 => self.sign_weight() - value,
            Form::Carrier if value < 0 => value + ADDED_TO_NEGATIVE_CARRIER,
            _ => value,
        }
    }

    /// The least and the greatest legal value.
    pub fn limits(&self) -> (i64, i64) {
        match self.form {
            Form::Plain => (0, (1 << self.width()) - 1),
            Form::Within { least, greatest } => (least, greatest),
            Form::Signed => (1 - self.sign_weight(), self.sign_weight() - 1),
            Form::TimeOfDay => (0, time_of_day(23, 59, 1)),
            Form::Carrier => (-7, 13),
        }
    }

    /// "Its value fits its bits and is in range", as one test.
    pub fn is_legal(&self, value: i64) -> bool {
        let (least, greatest) = self.limits();
        let within_limits = (least..=greatest).contains(&value);
        match self.form {
            Form::TimeOfDay => within_limits && minute(value) <= 59,
            _ => within_limits,
        }
    }

    /// RANGE names the word "by that word's top bit number".
    fn require_legal(&self, value: i64) -> Result<(), Refusal> {
        match self.is_legal(value) {
            true => Ok(()),
            false => Err(Refusal::Range {
                place: self.top_bit(),
            }),
        }
    }

    /// The weight that the sign bit would have in a plain number.
    fn sign_weight(&self) -> i64 {
        1 << (self.width() - 1)
    }
}

/// tk as one number: hour x 128 + minute x 2 + half minute.
pub fn time_of_day(hour: i64, minute: i64, half_minute: i64) -> i64 {
    128 * hour + 2 * minute + half_minute
}

/// The six bits above the half minute; they can hold 60 to 63, too.
fn minute(time_of_day: i64) -> i64 {
    time_of_day / 2 % 64
}
