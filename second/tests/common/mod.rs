//! Encoded strings that several tests take as their starting point.

use second::known;
use second::random::SplitMix64;
use second::string::NavString;

/// A, and three strings with random data; bit 85 is 0 in all.
pub fn encoded_strings() -> Vec<NavString> {
    let mut random = SplitMix64::new(1);
    let mut strings = vec![known::a()];
    for _ in 0..3 {
        strings.push(random.encoded_string(false));
    }
    strings
}
