//! Requests 13 and 45: a block. Its answer is the only one of several lines.

use super::line_of;
use super::station::{answer_to_offer, answer_to_reset};
use crate::block::{hand_over, Answer};
use crate::station::Station;

/// "For each offer and reset the line of 6 or 7, nothing for a remark, then `end` or
/// `no N PLACE`." The last line has no line feed.
pub fn block(station: &mut Station, card: u8, block: &[u8]) -> String {
    let handed_over = hand_over(station, card, block);
    let mut lines: Vec<String> = handed_over.answers.into_iter().map(line).collect();
    let end = handed_over.end.map(|()| String::from("end"));
    lines.push(line_of(end));
    lines.join("\n")
}

fn line(answer: Answer) -> String {
    line_of(match answer {
        Answer::Offer(answer) => answer_to_offer(answer),
        Answer::Reset(answer) => answer_to_reset(answer),
    })
}
