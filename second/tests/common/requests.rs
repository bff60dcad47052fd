//! A few requests to `trial`, and their lines.

use second::request::append;
use second::trial;

/// An op and its payload.
pub type Asked = (u8, Vec<u8>);

pub fn written(requests: &[Asked]) -> Vec<u8> {
    let mut input = Vec::new();
    for (op, payload) in requests {
        append(&mut input, *op, payload);
    }
    input
}

pub fn answers(requests: &[Asked]) -> Vec<String> {
    let lines = trial::answer_input(&written(requests));
    lines.lines().map(String::from).collect()
}
