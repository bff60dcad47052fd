//! Answers to `trial` requests: one line for each, several for a block, all to the station in
//! use.

mod block;
mod host;
mod navigation;
mod salvage;
pub mod sites;
mod sky;
mod station;
mod strings;
mod words;

use crate::refusal::Refusal;
use crate::request::{self, Piece, Request};
use crate::station::{card, Station};
use crate::string::BYTES;
use sites::Sites;

type Answer = Result<String, Refusal>;

/// What the tallies of the station near their limit have counted: two offers more, and they
/// are there.
const NEAR_THE_LIMIT: u32 = 4_294_967_293;

/// The lines for a whole input. Both stations are fresh at its start.
pub fn answer_input(input: &[u8]) -> String {
    lines_of(answers(input))
}

/// The same, but every tally of the station in use begins near its limit.
pub fn answer_input_near_the_limit(input: &[u8]) -> String {
    lines_of(answers_near_the_limit(input))
}

fn lines_of<'a>(answers: impl Iterator<Item = (Piece<'a>, String)>) -> String {
    answers.map(|(_, answer)| answer + "\n").collect()
}

/// Each piece with its answer, without the last line feed.
pub fn answers(input: &[u8]) -> impl Iterator<Item = (Piece<'_>, String)> {
    answers_from(Sites::default(), input)
}

pub fn answers_near_the_limit(input: &[u8]) -> impl Iterator<Item = (Piece<'_>, String)> {
    let station = Station::with_tallies_at(NEAR_THE_LIMIT);
    answers_from(Sites::with_in_use(station), input)
}

fn answers_from(mut sites: Sites, input: &[u8]) -> impl Iterator<Item = (Piece<'_>, String)> {
    request::pieces(input).map(move |piece| (piece, answer_piece(&mut sites, piece)))
}

/// The lines for one block, of any length, that card one hands to a fresh station.
pub fn answer_block(block: &[u8]) -> String {
    block::block(&mut Station::default(), card::ONE, block) + "\n"
}

/// The answer to one piece, without the last line feed.
pub fn answer_piece(sites: &mut Sites, piece: Piece) -> String {
    match piece {
        Piece::Whole(request) => answer_request(sites, request),
        Piece::Short(count) => format!("short {count}"),
    }
}

fn answer_request(sites: &mut Sites, request: Request) -> String {
    match call(sites, request) {
        Some(answer) => line_of(answer),
        None => format!("bad {}", request.op),
    }
}

fn line_of(answer: Answer) -> String {
    answer.unwrap_or_else(|refusal| refusal.to_string())
}

/// None where there is no such op, or no such payload for it.
fn call(sites: &mut Sites, request: Request) -> Option<Answer> {
    match request.asked_by() {
        Some((card, asked)) => call_of_card(&mut sites.in_use, card, asked),
        None => call_of_no_card(sites, request),
    }
}

fn call_of_card(station: &mut Station, card: u8, asked: Request) -> Option<Answer> {
    let payload = asked.payload;
    match asked.op {
        request::OFFER => station::offer(station, card, payload),
        request::RESET => station::reset(station, card, payload),
        request::IMMEDIATE => station::immediate(station, card, payload),
        request::ENTRY => station::entry(station, card, payload),
        request::TALLIES => station::tallies(station, card, payload),
        request::HEALTH => station::health(station, card, payload),
        request::BLOCK => Some(Ok(block::block(station, card, payload))),
        request::SUMMARY => station::summary(station, card, payload),
        request::NAVIGATION => navigation::record(station, card, payload),
        request::ENTRY_WORDS => station::entry_words(station, card, payload),
        request::FIVE_OF => navigation::five_of(station, card, payload),
        request::CARRIER => navigation::carrier(station, card, payload),
        _ => None,
    }
}

fn call_of_no_card(sites: &mut Sites, request: Request) -> Option<Answer> {
    let payload = request.payload;
    match request.op {
        request::FROM_RELATIVE => strings::from_relative(payload),
        request::TO_RELATIVE => strings::to_relative(payload),
        request::CHECK => strings::check(payload),
        request::READ => words::read(payload),
        request::WRITE => words::write(payload),
        request::FRESH => station::fresh(&mut sites.in_use, payload),
        request::WORD_AS_FLOAT => host::word(payload),
        request::FOUR_STRINGS => host::record(payload),
        request::SALVAGE => salvage::salvage(payload),
        request::SKY => sky::symbols(payload),
        request::CHIP => sky::chip(payload),
        request::OTHER_STATION => sites::exchange(sites, payload),
        request::JOIN => sites::join(sites, payload),
        _ => None,
    }
}

/// ROOM: "output not 11 bytes".
fn require_room(room: u8) -> Result<(), Refusal> {
    match usize::from(room) {
        BYTES => Ok(()),
        _ => Err(Refusal::Room),
    }
}

fn hex(bytes: &[u8]) -> String {
    bytes.iter().map(|byte| format!("{byte:02x}")).collect()
}

fn in_decimal(values: &[i64]) -> String {
    let values: Vec<String> = values.iter().map(i64::to_string).collect();
    values.join(" ")
}
