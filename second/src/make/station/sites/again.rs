//! Joins that bring little or nothing: the same book again, an older one after a newer one, and
//! empty books.

use super::super::super::Input;
use super::History;

/// As many as two sites hear in a superframe and a half.
const RECORDS: usize = 450;

pub(super) fn add_all(input: &mut Input) {
    let histories = input.one_sky_at::<2>(RECORDS);
    let [first, second] = [0, 1].map(|site| &histories[site][..]);
    input.joined_again(first, second);
    input.book_with_itself(first);
    input.older_after_newer(first, second);
    input.older_before_newer(first, second);
    for histories in [[first, &[]], [&[], first], [&[], &[]]] {
        input.with_an_empty_book(histories);
    }
}

impl Input {
    /// Into the one twice, then into the other, and back again.
    fn joined_again(&mut self, first: &History, second: &History) {
        self.sites(Input::tell_in_blocks, [first, second]);
        for _ in 0..2 {
            self.join();
            self.ask_entries();
        }
        for _ in 0..2 {
            self.other_station();
            self.join();
            self.ask_entries();
        }
    }

    fn book_with_itself(&mut self, history: &History) {
        self.sites(Input::tell_in_blocks, [history, history]);
        self.ask_entries();
        self.join();
        self.ask_entries();
    }

    /// The second site's book as it is at the end, and then as it was.
    fn older_after_newer(&mut self, first: &History, second: &History) {
        self.sites(Input::tell_in_blocks, [first, second]);
        self.join();
        self.ask_entries();
        for part in [3, 2] {
            self.other_station();
            self.fresh();
            self.tell_in_blocks(&second[..second.len() / part]);
            self.ask_summary();
            self.other_station();
            self.join();
            self.ask_entries();
        }
    }

    /// As it is in the middle, and at the end.
    fn older_before_newer(&mut self, first: &History, second: &History) {
        let (older, newer) = second.split_at(second.len() / 2);
        self.sites(Input::tell_in_blocks, [first, older]);
        self.join();
        self.ask_entries();
        self.other_station();
        self.tell_in_blocks(newer);
        self.ask_summary();
        self.other_station();
        self.join();
        self.ask_entries();
    }

    fn with_an_empty_book(&mut self, histories: [&History; 2]) {
        self.sites(Input::tell_in_blocks, histories);
        self.join();
        for _ in 0..2 {
            self.ask_entries();
            self.other_station();
        }
    }
}
