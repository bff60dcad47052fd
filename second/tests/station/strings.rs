//! Strings for the tests, and their way into a station.

pub use second::alter::{with_bit_inverted, with_code, with_m};
use second::known::received_frame;
use second::refusal::Refusal;
use second::relative::to_relative;
use second::station::card::ONE;
use second::station::row::{News, Taken};
use second::station::Station;
use second::string::NavString;
use second::words::kinds::{Kind, EVEN, ODD, STRING_1, STRING_2, STRING_3, STRING_4, STRING_5};
use second::words::write;

fn written(kind: &Kind, m: usize, values: &[i64]) -> NavString {
    write(kind, m, values).unwrap()
}

/// String 1 with this x; tk is midnight.
pub fn string_1(x: i64) -> NavString {
    written(&STRING_1, 1, &[0, 0, 0, 0, x])
}

pub fn string_2(b: i64) -> NavString {
    written(&STRING_2, 2, &[b, 0, 1, 0, 0, 0])
}

pub fn string_3() -> NavString {
    written(&STRING_3, 3, &[0; 7])
}

pub fn string_4(n: i64) -> NavString {
    written(&STRING_4, 4, &[0, 0, 0, 0, 0, 0, n, 0])
}

/// Strings 1 to 4 of satellite n.
pub fn strings_1_to_4(b: i64, n: i64) -> [NavString; 4] {
    [string_1(0), string_2(b), string_3(), string_4(n)]
}

pub fn string_5(period: i64, day: i64) -> NavString {
    written(&STRING_5, 5, &[day, 0, period, 0, 0])
}

pub fn even(m: usize, slot: i64, c: i64, epsilon: i64) -> NavString {
    written(&EVEN, m, &[c, 0, slot, 0, 0, 0, epsilon])
}

pub fn odd(m: usize, t_lambda: i64, l: i64) -> NavString {
    written(&ODD, m, &[0, t_lambda, 0, 0, 0, l])
}

/// Strings 6 to 15 with slots from `first` on, five pairs.
pub fn five_pairs(first: i64) -> Vec<NavString> {
    (0..5)
        .flat_map(|pair| {
            let m = 6 + 2 * pair;
            [even(m, first + pair as i64, 1, 0), odd(m + 1, 0, 0)]
        })
        .collect()
}

pub fn offer(
    station: &mut Station,
    channel: usize,
    epoch: u32,
    string: &NavString,
) -> Result<Taken, Refusal> {
    let symbols = to_relative(string).unwrap();
    station.offer(ONE, channel, epoch, &symbols.to_bytes())
}

/// Offers a string as one of the frame with this start.
pub fn offer_in_frame(
    station: &mut Station,
    channel: usize,
    start: u32,
    string: &NavString,
) -> Result<News, Refusal> {
    let epoch = start + (string.m() as u32 - 1);
    offer(station, channel, epoch, string).map(|taken| taken.news)
}

/// Offers strings that the station takes.
pub fn take_all(station: &mut Station, channel: usize, start: u32, strings: &[NavString]) {
    take_all_by(ONE, station, channel, start, strings);
}

/// The same, offered by this card.
pub fn take_all_by(
    card: u8,
    station: &mut Station,
    channel: usize,
    start: u32,
    strings: &[NavString],
) {
    for string in strings {
        let symbols = to_relative(string).unwrap().to_bytes();
        let epoch = start + (string.m() as u32 - 1);
        let answer = station.offer(card, channel, epoch, &symbols);
        assert!(answer.is_ok(), "string {}: {answer:?}", string.m());
    }
}

/// Offers three strings in one frame on a channel that holds nothing else.
pub fn show(station: &mut Station, channel: usize, strings: &[NavString]) {
    station.reset(ONE, channel).unwrap();
    take_all(station, channel, 100, strings);
}

pub fn station_with_received_frame(channel: usize) -> Station {
    let mut station = Station::default();
    take_all(&mut station, channel, 100, &received_frame());
    station
}
