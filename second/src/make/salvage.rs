//! Requests for salvage: short files, whole and torn in every way, with much room and with
//! little.

use super::field_feed::FieldFeed;
use super::tearing::tear;
use super::Input;
use crate::block::{field, offer_field, remark_field, reset_field, OFFER, REMARK, RESET};
use crate::known;
use crate::listing::Record;
use crate::request::{LONGEST_FILE, SALVAGE};

/// No file and no list of one needs more.
const PLENTY: [u8; 2] = [255, 255];

/// Bytes that tags and lengths are made of, and one that is no tag.
const BYTES_OF_FIELDS: [u8; 6] = [0, 1, 2, 3, 16, 4];

/// Tags and lengths, cut at will.
const HEADERS: [&[u8]; 12] = [
    &[3, 0, 0],
    &[3, 0, 1],
    &[3, 0, 4],
    &[3, 0, 60],
    &[3, 1, 0],
    &[3, 255, 255],
    &[2, 0, 1],
    &[2, 0, 0],
    &[1, 0, 16],
    &[1, 16, 0],
    &[4, 0, 0],
    &[0],
];

pub(super) fn add_all(input: &mut Input) {
    input.whole_files();
    input.one_byte_wrong();
    input.cut_files();
    input.holes();
    input.one_good_field_is_not_enough();
    input.remarks_of_every_length();
    input.every_small_room();
    input.headers_end_to_end();
    input.torn_fields();
    input.random_files();
    input.files_that_are_too_long();
}

impl Input {
    fn salvage(&mut self, rooms: [u8; 2], file: &[u8]) {
        self.request(SALVAGE, &[&rooms, file].concat());
    }

    /// None, each alone, each two, and as many as fit; the room of the output is just enough.
    fn whole_files(&mut self) {
        self.salvage(PLENTY, &[]);
        self.salvage([0, 0], &[]);
        for first in small_fields() {
            self.salvage([first.len() as u8, 0], &first);
            for second in small_fields() {
                let both = [&first[..], &second].concat();
                self.salvage([both.len() as u8, 0], &both);
            }
        }
        for one in small_fields() {
            let many = one.repeat(LONGEST_FILE / one.len());
            self.salvage([many.len() as u8, 0], &many);
            self.salvage(PLENTY, &many);
        }
        self.salvage([LONGEST_FILE as u8, 0], &longest_file());
    }

    /// At every place a byte changed, removed, inserted.
    fn one_byte_wrong(&mut self) {
        for file in [mixed_file(), nested_file()] {
            for place in 0..=file.len() {
                let other = self.random.number() as u8;
                for byte in [0, 3, other] {
                    let mut inserted = file.clone();
                    inserted.insert(place, byte);
                    self.salvage(PLENTY, &inserted);
                }
            }
            for place in 0..file.len() {
                for byte in [
                    0,
                    3,
                    file[place].wrapping_add(1),
                    file[place].wrapping_sub(1),
                ] {
                    let mut changed = file.clone();
                    changed[place] = byte;
                    self.salvage(PLENTY, &changed);
                }
                let mut removed = file.clone();
                removed.remove(place);
                self.salvage(PLENTY, &removed);
            }
        }
    }

    /// At the end and at the start, by every count of bytes.
    fn cut_files(&mut self) {
        for file in [mixed_file(), nested_file()] {
            for count in 0..file.len() {
                self.salvage(PLENTY, &file[..count]);
                self.salvage(PLENTY, &file[count..]);
            }
        }
    }

    /// At every place, of some lengths: bytes gone, or filled.
    fn holes(&mut self) {
        let file = mixed_file();
        for first in 0..file.len() {
            for count in [2, 3, 4, 7, 19, 23, 40] {
                let end = file.len().min(first + count);
                let mut filled = file.clone();
                filled[first..end].fill([0, 255, 3][(first + count) % 3]);
                self.salvage(PLENTY, &filled);
                let gone = [&file[..first], &file[end..]].concat();
                self.salvage(PLENTY, &gone);
            }
        }
    }

    /// A good field after a byte that is none: with a good one behind it, with a bad one, at
    /// the end; and a byte from which the field begins too early.
    fn one_good_field_is_not_enough(&mut self) {
        for good in small_fields() {
            for before in [
                &[0][..],
                &[3],
                &[3, 0],
                &[3, 255],
                &[2, 0, 0],
                &[9, 9, 9, 9],
            ] {
                for behind in [
                    &[][..],
                    &[0],
                    &[3],
                    &[3, 0, 0],
                    &[3, 0, 1],
                    &[2, 0, 1, 9],
                    &[2, 0, 1, 9, 0],
                    &[0, 2, 0, 1, 9],
                ] {
                    self.salvage(PLENTY, &[before, &good, behind].concat());
                }
            }
        }
    }

    /// Up to the end of the file, and past it; the next field follows where there is room.
    fn remarks_of_every_length(&mut self) {
        for length in (0..=64).chain([255, 256, 4096, 65_535]) {
            let header = [&[REMARK], &(length as u16).to_be_bytes()[..]].concat();
            let mut file = [&header[..], &[7; 8], &mixed_file()[19..38]].concat();
            self.salvage(PLENTY, &file);
            file.insert(0, 0);
            self.salvage(PLENTY, &file);
        }
    }

    /// Every room of the output with every room of the list that matters.
    fn every_small_room(&mut self) {
        let [offer, reset, remark, empty] = small_fields();
        let file = [
            &[0, 9][..],
            &reset,
            &empty,
            &[5],
            &remark,
            &reset,
            &[6, 6, 6],
            &offer,
        ]
        .concat();
        for output in 0..=40 {
            for list in [0, 1, 2, 3, 4] {
                self.salvage([output, list], &file);
            }
        }
        for rooms in [[39, 255], [255, 2], [255, 3], [38, 3]] {
            self.salvage(rooms, &file);
        }
        for list in 0..=33 {
            // Stretches of one byte, each before two empty remarks.
            let many = [0, 3, 0, 0, 3, 0, 0].repeat(13);
            self.salvage([255, list], &many);
        }
    }

    /// Headers without their contents, and some with them; rooms of any size.
    fn headers_end_to_end(&mut self) {
        for round in 0..500 {
            let mut file = Vec::new();
            for _ in 0..=self.random.below(24) {
                let header = self.random.one_of(&HEADERS);
                let length = self.random.one_of(&[1, 2, 3, 3, 3]);
                file.extend(header.iter().take(length));
                let content = self.random.below(5);
                file.extend(vec![9; content]);
            }
            file.truncate(LONGEST_FILE);
            let rooms = self.rooms(round);
            self.salvage(rooms, &file);
        }
    }

    /// Fields as the sky gives them, torn once or twice.
    fn torn_fields(&mut self) {
        let mut feed = FieldFeed::new(self.random.number());
        for round in 0..500 {
            let mut file: Vec<u8> = feed.by_ref().take(6).flatten().collect();
            file.truncate(LONGEST_FILE);
            for _ in 0..=self.random.below(2) {
                tear(&mut self.random, &mut file);
                file.truncate(LONGEST_FILE);
                if file.is_empty() {
                    break;
                }
            }
            let rooms = self.rooms(round);
            self.salvage(rooms, &file);
        }
    }

    /// Any bytes, and those of fields alone.
    fn random_files(&mut self) {
        for round in 0..400 {
            let length = self.random.below(LONGEST_FILE + 1);
            let mut file = self.random.bytes(length);
            if round % 4 > 0 {
                file.fill_with(|| self.random.one_of(&BYTES_OF_FIELDS));
            }
            let rooms = self.rooms(round);
            self.salvage(rooms, &file);
        }
    }

    /// Plenty for one round in two, else small ones.
    fn rooms(&mut self, round: usize) -> [u8; 2] {
        match round % 2 {
            0 => PLENTY,
            _ => [self.random.below(80) as u8, self.random.below(5) as u8],
        }
    }

    /// And payloads that lack a room.
    fn files_that_are_too_long(&mut self) {
        for payload in [&[][..], &[0], &[255]] {
            self.request(SALVAGE, payload);
        }
        for length in [95, 96, 97, 98, 100, 255, 256, 352, 1000] {
            for filling in [0, 3] {
                self.salvage(PLENTY, &vec![filling; length]);
            }
        }
        self.salvage(PLENTY, &[&longest_file()[..], &remark_field(&[])].concat());
    }
}

/// An offer, a reset, a remark and an empty one.
fn small_fields() -> [Vec<u8>; 4] {
    let record = Record {
        channel: 3,
        epoch: 0x0000_0300,
        symbols: known::B,
    };
    [
        offer_field(&record),
        reset_field(2),
        remark_field(&[9, 8, 7, 6, 5]),
        remark_field(&[]),
    ]
}

/// All of them. The offer's channel and epoch look like an empty remark and the start of
/// another one.
fn mixed_file() -> Vec<u8> {
    let [offer, reset, remark, empty] = small_fields();
    [&offer[..], &reset, &remark, &reset, &empty, &offer].concat()
}

/// Fields in remarks, one of them of a wrong length.
fn nested_file() -> Vec<u8> {
    let [_, reset, remark, empty] = small_fields();
    let inner = [&reset[..], &remark, &field(RESET, &[1, 1])].concat();
    [
        &remark_field(&inner)[..],
        &reset,
        &remark_field(&field(OFFER, &[])),
        &empty,
    ]
    .concat()
}

fn longest_file() -> Vec<u8> {
    let mixed = mixed_file();
    let left = LONGEST_FILE - mixed.len() - 3;
    [&mixed[..], &remark_field(&vec![3; left])].concat()
}
