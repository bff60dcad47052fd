//! A capture for the navigation file: satellites on channels of both cards over changes of tb,
//! over midnight and over new year.

mod channels;

use super::feed::Feed;
use super::hearing::in_some_polarity;
use super::satellite::{on_day, Satellite, Upload};
use crate::alter::with_code;
use crate::listing::Record;
use crate::random::SplitMix64;
use crate::string::NavString;
use crate::words::kinds::{DAY, TB};
use crate::words::word::time_of_day;

/// N4, NT and tb, and tk when the first frame then starts: hour and minute.
struct Moment {
    period: u128,
    day: u128,
    tb: u128,
    tk: (i64, i64),
}

const fn moment(period: u128, day: u128, tb: u128, tk: (i64, i64)) -> Moment {
    Moment {
        period,
        day,
        tb,
        tk,
    }
}

/// In Moscow 2019 ends before the third of them. Three hours later, where the files' time is,
/// it ends before the fifth.
const MOMENTS: [Moment; 6] = [
    moment(6, 1461, 94, (23, 20)),
    moment(6, 1461, 95, (23, 40)),
    moment(7, 1, 1, (0, 5)),
    moment(7, 1, 11, (2, 40)),
    moment(7, 1, 12, (2, 58)),
    moment(7, 1, 13, (3, 10)),
];
const FIRST_MOMENT_OF_2020: usize = 2;

/// When the moments begin, in two-second marks.
const FIRST_MARK: u32 = 1000;
const MARKS_BETWEEN_MOMENTS: u32 = 900;

/// Every n that five bits can hold.
const SATELLITES: u128 = 32;

/// This channel's caller began to count so shortly before 2^32.
const CHANNEL_NEAR_THE_LAST_EPOCH: u8 = 22;
const ITS_FIRST_EPOCH: u32 = 4_294_960_000;

/// Any satellites at any time, on three channels from each of these on.
const FEEDS: [u8; 5] = [10, 13, 18, 34, 40];
const CHANNELS_OF_A_FEED: u8 = 3;
const RECORDS_OF_A_FEED: usize = 150;

/// The beginning of a record.
const LEFT_OVER: [u8; 7] = [0, 0, 0, 0, 100, 0x0F, 0xFF];

/// The same seed always gives the same bytes.
pub fn capture(seed: u64) -> Vec<u8> {
    let mut capture = Capture::new(seed);
    channels::add_all(&mut capture);
    capture.records.sort_by_key(|&(mark, _)| mark);
    let records = capture.records.iter().map(|(_, record)| *record);
    let mut bytes: Vec<u8> = records.flat_map(|record| record.to_bytes()).collect();
    for first in FEEDS {
        let feed = Feed::new(capture.random.number(), CHANNELS_OF_A_FEED);
        let records = feed.take(RECORDS_OF_A_FEED);
        bytes.extend(records.flat_map(|record| shifted(first, record).to_bytes()));
    }
    bytes.extend(LEFT_OVER);
    bytes
}

/// A wrong channel stays as it is.
fn shifted(first: u8, mut record: Record) -> Record {
    if record.channel < CHANNELS_OF_A_FEED {
        record.channel += first;
    }
    record
}

struct Capture {
    random: SplitMix64,
    /// What satellite n sends at each moment: the same on all channels that follow it.
    satellites: Vec<Vec<Satellite>>,
    /// The almanac at each moment.
    uploads: Vec<Upload>,
    /// Each with the mark at which it is handed over.
    records: Vec<(u32, Record)>,
}

impl Capture {
    fn new(seed: u64) -> Capture {
        let mut random = SplitMix64::new(seed);
        let satellites = (0..SATELLITES)
            .map(|n| {
                let moments = MOMENTS.iter();
                moments
                    .map(|then| satellite_at(&mut random, n, then))
                    .collect()
            })
            .collect();
        let [old, new] = [(6, 1461), (7, 1)].map(|day| Upload::new(&mut random, day));
        let uploads = (0..MOMENTS.len()).map(|index| match index < FIRST_MOMENT_OF_2020 {
            true => old.clone(),
            false => new.clone(),
        });
        Capture {
            satellites,
            uploads: uploads.collect(),
            random,
            records: Vec::new(),
        }
    }

    /// The frame of this number, 1 to 5, that satellite n sends at a moment, each half a minute
    /// after the one before.
    fn frame(&self, n: usize, index: usize, number: usize) -> Vec<NavString> {
        let Moment {
            period,
            day,
            tk: (hour, minute),
            ..
        } = MOMENTS[index];
        let half_minutes = 2 * minute + number as i64 - 1;
        let time = time_of_day(hour, half_minutes / 2, half_minutes % 2);
        let satellite = self.satellites[n][index].clone().at(time);
        let mut strings = satellite.frame(&self.uploads[index], number);
        strings[4] = on_day(&strings[4], (period, day));
        strings
    }

    /// In the frame that starts at this mark, handed over as they come.
    fn send(&mut self, channel: u8, start: u32, strings: &[NavString]) {
        self.send_late(0, channel, start, strings);
    }

    /// The same, handed over so many marks later.
    fn send_late(&mut self, delay: u32, channel: u8, start: u32, strings: &[NavString]) {
        for string in strings {
            let mark = start + string.m().saturating_sub(1) as u32;
            let symbols = in_some_polarity(&mut self.random, string).to_bytes();
            let record = Record {
                channel,
                epoch: mark + first_epoch(channel),
                symbols,
            };
            self.records.push((mark + delay, record));
        }
    }
}

fn satellite_at(random: &mut SplitMix64, n: u128, then: &Moment) -> Satellite {
    let mut satellite = Satellite::new(random, n);
    let [_, second, _, fourth] = &mut satellite.strings;
    *second = with_code(second, &TB, then.tb);
    *fourth = with_code(fourth, &DAY, then.day);
    satellite
}

fn first_epoch(channel: u8) -> u32 {
    match channel {
        CHANNEL_NEAR_THE_LAST_EPOCH => ITS_FIRST_EPOCH,
        _ => 0,
    }
}

/// The mark at which a moment begins.
fn start_of(index: usize) -> u32 {
    FIRST_MARK + MARKS_BETWEEN_MOMENTS * index as u32
}
