//! An endless run of records: channels that follow satellites over superframes.

use std::collections::VecDeque;

use super::faults::out_of_range;
use super::hearing::{
    drawn_by, heard, Hearing, Odds, Sent, CORRODED_CHANNEL, GOOD_CHANNEL, POOR_CHANNEL,
};
use super::satellite::{day_after, on_day, Day, Satellite, Upload, FRAMES_IN_A_SUPERFRAME};
use crate::alter::{minus_zero, with_bit_inverted, with_code};
use crate::listing::Record;
use crate::random::SplitMix64;
use crate::station::frame::STRINGS_IN_A_FRAME;
use crate::string::NavString;
use crate::words::kinds::{kind_of, Kind, ALMANAC_SLOT, FOUR_YEAR_PERIOD};
use crate::words::word::{time_of_day, Word};

/// In two-second marks: a late string's delay, and how long a lost signal is gone.
const LONGEST_DELAY: usize = 40;
const LONGEST_SILENCE: usize = 60;

/// Almanacs that satellites have at a time.
const UPLOADS: usize = 3;
const MARKS_IN_A_FRAME: u32 = STRINGS_IN_A_FRAME as u32;
const MARKS_IN_A_SUPERFRAME: u32 = MARKS_IN_A_FRAME * FRAMES_IN_A_SUPERFRAME as u32;
const FRAMES_IN_A_DAY: u32 = 24 * 60 * 2;

/// This channel's caller began to count shortly before 2^32.
const CHANNEL_NEAR_THE_LAST_EPOCH: u8 = 22;
const ITS_FIRST_EPOCH: u32 = u32::MAX - 299;

pub struct Feed {
    random: SplitMix64,
    /// Of equal days or of days that are near.
    uploads: Vec<Upload>,
    newest_day: Day,
    channels: Vec<Channel>,
    /// Two-second marks since the start.
    mark: u32,
    late: Vec<(u32, Record)>,
    ready: VecDeque<Record>,
}

struct Channel {
    number: u8,
    odds: &'static Odds,
    satellite: Satellite,
    upload: usize,
    /// The mark, counted through a frame, at which frames start.
    phase: u32,
    silent_until: u32,
    /// The frame being sent, by its count, and its strings.
    frame: Option<(u32, Vec<NavString>)>,
}

impl Iterator for Feed {
    type Item = Record;

    fn next(&mut self) -> Option<Record> {
        while self.ready.is_empty() {
            self.next_mark();
        }
        self.ready.pop_front()
    }
}

impl Feed {
    pub fn new(seed: u64, channels: u8) -> Feed {
        let mut random = SplitMix64::new(seed);
        // Near the end of a period, so that days pass from 1461 to 1.
        let day = (1 + random.below(29) as u128, 1455 + random.below(7) as u128);
        Feed::begun_on(day, random, 0..channels)
    }

    /// The channels with these numbers, and almanacs of this day.
    pub fn begun_on(
        day: Day,
        mut random: SplitMix64,
        channels: impl IntoIterator<Item = u8>,
    ) -> Feed {
        let uploads = (0..UPLOADS)
            .map(|_| Upload::new(&mut random, day))
            .collect();
        let phase = random.below(STRINGS_IN_A_FRAME) as u32;
        let channels = channels.into_iter();
        let channels = channels.map(|number| Channel::new(&mut random, number, phase));
        Feed {
            channels: channels.collect(),
            uploads,
            newest_day: day,
            random,
            mark: 0,
            late: Vec::new(),
            ready: VecDeque::new(),
        }
    }

    /// All channels that hear something at this mark, beginning with another one
    /// each time; then what was late and is due.
    fn next_mark(&mut self) {
        if self.mark.is_multiple_of(MARKS_IN_A_SUPERFRAME) {
            self.next_superframe();
        }
        let count = self.channels.len();
        let first = self.random.below(count);
        for index in (first..count).chain(0..first) {
            self.hear(index);
        }
        self.hand_over_what_is_due();
        self.mark += 1;
    }

    fn hand_over_what_is_due(&mut self) {
        let late = std::mem::take(&mut self.late);
        for (due, record) in late {
            match due <= self.mark {
                true => self.ready.push_back(record),
                false => self.late.push((due, record)),
            }
        }
    }

    /// A new almanac for the same day or the next; another one is dated anew.
    fn next_superframe(&mut self) {
        if self.random.below(2) == 0 {
            self.newest_day = day_after(self.newest_day);
        }
        let index = self.random.below(UPLOADS);
        self.uploads[index] = Upload::new(&mut self.random, self.newest_day);
        let other = self.random.below(UPLOADS);
        let string_5 = &mut self.uploads[other].string_5;
        *string_5 = on_day(string_5, self.newest_day);
    }

    fn hear(&mut self, index: usize) {
        let channel = &mut self.channels[index];
        let Some(string) = channel.string_at(&mut self.random, self.mark, &self.uploads) else {
            return;
        };
        let hearing = drawn_by(&mut self.random, channel.odds);
        let sent = Sent {
            channel: channel.number,
            epoch: channel.epoch_at(self.mark),
            string,
        };
        self.hand_over(hearing, sent);
    }

    fn hand_over(&mut self, hearing: Hearing, sent: Sent) {
        let record = heard(&mut self.random, hearing, &sent);
        match hearing {
            Hearing::Lost => (),
            Hearing::Late => {
                let due = self.mark + 1 + self.random.below(LONGEST_DELAY) as u32;
                self.late.push((due, record));
            }
            Hearing::Twice => self.hand_over_both(record, Hearing::Good, &sent),
            Hearing::Contradicted => self.hand_over_both(record, Hearing::OtherData, &sent),
            _ => self.ready.push_back(record),
        }
    }

    fn hand_over_both(&mut self, first: Record, second: Hearing, sent: &Sent) {
        let second = heard(&mut self.random, second, sent);
        self.ready.extend([first, second]);
    }
}

impl Channel {
    /// Most satellites send in step; one channel in six has a phase of its own.
    fn new(random: &mut SplitMix64, number: u8, common_phase: u32) -> Channel {
        let own_phase = random.below(STRINGS_IN_A_FRAME) as u32;
        let n = random.below(32) as u128;
        Channel {
            number,
            odds: match number % 12 {
                11 => CORRODED_CHANNEL,
                1 | 3 | 5 | 7 | 9 => POOR_CHANNEL,
                _ => GOOD_CHANNEL,
            },
            satellite: Satellite::new(random, n),
            upload: random.below(UPLOADS),
            phase: match number % 6 {
                5 => own_phase,
                _ => common_phase,
            },
            silent_until: 0,
            frame: None,
        }
    }

    fn epoch_at(&self, mark: u32) -> u32 {
        match self.number {
            CHANNEL_NEAR_THE_LAST_EPOCH => mark.wrapping_add(ITS_FIRST_EPOCH),
            _ => mark,
        }
    }

    /// The string that the satellite ends at this mark; none while it is not heard.
    fn string_at(
        &mut self,
        random: &mut SplitMix64,
        mark: u32,
        uploads: &[Upload],
    ) -> Option<NavString> {
        if mark < self.silent_until {
            return None;
        }
        let since_a_start = mark + MARKS_IN_A_SUPERFRAME - self.phase;
        let count = since_a_start / MARKS_IN_A_FRAME;
        if self.frame.as_ref().is_none_or(|&(held, _)| held != count) {
            self.next_frame(random, mark, count, uploads);
        }
        let (_, strings) = self.frame.as_ref()?;
        Some(strings[(since_a_start % MARKS_IN_A_FRAME) as usize])
    }

    fn next_frame(&mut self, random: &mut SplitMix64, mark: u32, count: u32, uploads: &[Upload]) {
        self.follow(random, mark);
        let in_day = i64::from(count % FRAMES_IN_A_DAY);
        let time = time_of_day(in_day / 120, in_day / 2 % 60, in_day % 2);
        let number = count as usize % FRAMES_IN_A_SUPERFRAME + 1;
        let satellite = self.satellite.clone().at(time);
        let mut strings = satellite.frame(&uploads[self.upload], number);
        add_oddities(random, &mut strings);
        self.frame = Some((count, strings));
    }

    /// Now and then new words or another almanac; or the signal is lost and
    /// another one, on another beat, is found.
    fn follow(&mut self, random: &mut SplitMix64, mark: u32) {
        match random.below(60) {
            0..=5 => self.upload = random.below(UPLOADS),
            6..=9 => self.renew(random),
            10 => {
                self.renew(random);
                self.silent_until = mark + random.below(LONGEST_SILENCE) as u32;
                self.phase = random.below(STRINGS_IN_A_FRAME) as u32;
            }
            _ => (),
        }
    }

    /// Another satellite; half of them have the top bit of B at 0.
    fn renew(&mut self, random: &mut SplitMix64) {
        let n = 1 + random.below(24) as u128;
        self.satellite = Satellite::new(random, n);
    }
}

/// What satellites send against the rules, or without meaning: one in two frames
/// has something of it.
fn add_oddities(random: &mut SplitMix64, strings: &mut [NavString]) {
    let m = 1 + random.below(strings.len());
    let kind = kind_of(m);
    let odd = match random.below(10) {
        0 => out_of_range(random, kind, &strings[m - 1]),
        1 => with_minus_zero(random, kind, &strings[m - 1]),
        2 => with_reserved_bit(random, kind, &strings[m - 1]),
        3 => with_code(&strings[5 - 1], &FOUR_YEAR_PERIOD, 0),
        4 => with_code(&strings[6 - 1], &ALMANAC_SLOT, random.below(32) as u128),
        _ => return,
    };
    strings[odd.m() - 1] = odd;
}

fn with_minus_zero(random: &mut SplitMix64, kind: &Kind, string: &NavString) -> NavString {
    let words: Vec<&Word> = kind.signed_words().collect();
    let word = random.one_of(&words);
    with_code(string, word, minus_zero(word))
}

fn with_reserved_bit(random: &mut SplitMix64, kind: &Kind, string: &NavString) -> NavString {
    let bits: Vec<usize> = kind.reserved_bits().collect();
    match bits.is_empty() {
        true => *string,
        false => with_bit_inverted(string, random.one_of(&bits)),
    }
}
