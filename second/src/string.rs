//! The string: 85 bits, numbered 85 down to 1, in eleven bytes.

use crate::refusal::Refusal;

/// Bits in a string, and the number of its first bit, the idle bit.
pub const BITS: usize = 85;
pub const IDLE_BIT: usize = BITS;

/// Bytes that carry a string.
pub const BYTES: usize = 11;

/// The last three bits of the eleventh byte are padding.
pub const PADDING: u8 = 0b111;

/// "Bits 84 to 81 are the string number m, 80 to 9 are data": top and lowest bit.
pub const STRING_NUMBER: (usize, usize) = (84, 81);
pub const DATA: (usize, usize) = (80, 9);

/// A string's bits, or its symbols on the line. Bit number i is `bits[i - 1]`.
#[derive(Clone, Copy, Debug, PartialEq, Eq)]
pub struct NavString {
    bits: [bool; BITS],
}

impl NavString {
    pub fn zero() -> NavString {
        NavString {
            bits: [false; BITS],
        }
    }

    /// SHAPE: "not 11 bytes, or padding not 0".
    pub fn from_bytes(bytes: &[u8]) -> Result<NavString, Refusal> {
        if bytes.len() != BYTES || bytes[BYTES - 1] & PADDING != 0 {
            return Err(Refusal::Shape);
        }
        let mut string = NavString::zero();
        for number in 1..=BITS {
            let (byte, mask) = place_in_bytes(number);
            string.set(number, bytes[byte] & mask != 0);
        }
        Ok(string)
    }

    pub fn to_bytes(&self) -> [u8; BYTES] {
        let mut bytes = [0; BYTES];
        for number in 1..=BITS {
            let (byte, mask) = place_in_bytes(number);
            if self.bit(number) {
                bytes[byte] |= mask;
            }
        }
        bytes
    }

    pub fn bit(&self, number: usize) -> bool {
        self.bits[number - 1]
    }

    pub fn set(&mut self, number: usize, value: bool) {
        self.bits[number - 1] = value;
    }

    pub fn flip(&mut self, number: usize) {
        self.set(number, !self.bit(number));
    }

    /// The same string with each of these bits inverted.
    pub fn flipped(&self, numbers: &[usize]) -> NavString {
        let mut string = *self;
        for &number in numbers {
            string.flip(number);
        }
        string
    }

    /// The same string with all 85 bits inverted.
    pub fn inverted(&self) -> NavString {
        NavString {
            bits: self.bits.map(|bit| !bit),
        }
    }

    /// The number in the bits from `top` down to `low`: "in every word the highest
    /// bit number is the highest weight".
    pub fn number(&self, (top, low): (usize, usize)) -> u128 {
        (low..=top)
            .rev()
            .fold(0, |number, bit| 2 * number + u128::from(self.bit(bit)))
    }

    /// Writes a number into the bits from `top` down to `low`.
    pub fn set_number(&mut self, (top, low): (usize, usize), number: u128) {
        for bit in low..=top {
            self.set(bit, number >> (bit - low) & 1 == 1);
        }
    }

    /// The string number m, 0 to 15.
    pub fn m(&self) -> usize {
        self.number(STRING_NUMBER) as usize
    }

    /// NUMBER: "m = 0".
    pub fn require_m(&self) -> Result<usize, Refusal> {
        match self.m() {
            0 => Err(Refusal::Number),
            m => Ok(m),
        }
    }

    /// IDLE: "bit 85 is 1".
    pub fn require_idle_zero(&self) -> Result<(), Refusal> {
        match self.bit(IDLE_BIT) {
            true => Err(Refusal::Idle),
            false => Ok(()),
        }
    }
}

/// "Bit 85 is the top bit of the first byte": the byte and the bit within it.
fn place_in_bytes(number: usize) -> (usize, u8) {
    let bits_before = BITS - number;
    (bits_before / 8, 0x80 >> (bits_before % 8))
}
