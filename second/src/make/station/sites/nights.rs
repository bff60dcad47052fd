//! "Two sites exchange their books each night": what is told by day, a part each, and joins both
//! ways by night, after which both books are the same.

use super::super::super::Input;
use super::History;

/// As many as two sites hear in two superframes.
const RECORDS: usize = 600;
const NIGHTS: usize = 4;

pub(super) fn add_all(input: &mut Input) {
    let [first, second] = input.one_sky_at::<2>(RECORDS);
    let [first, second] = [&first, &second].map(|history| by_day(history));
    input.sites(Input::tell_in_blocks, [&[], &[]]);
    for (first, second) in first.zip(second) {
        input.tell_in_blocks(first);
        input.other_station();
        input.tell_in_blocks(second);
        input.night();
    }
}

fn by_day(history: &History) -> impl Iterator<Item = &History> {
    history.chunks(history.len().div_ceil(NIGHTS))
}

impl Input {
    /// The one is then in use that was set aside before.
    fn night(&mut self) {
        self.ask_summary();
        self.join();
        self.ask_entries();
        self.other_station();
        self.ask_summary();
        self.join();
        self.ask_entries();
    }
}
