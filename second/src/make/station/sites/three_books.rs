//! The books of three sites, joined in every order round the ring and in either grouping. The
//! station that a third site has was another's before, and is made fresh.

use super::super::super::Input;
use super::History;

/// As many as three sites hear in a superframe and a little more.
const RECORDS: usize = 500;

/// The sites by their numbers.
const RING: [[usize; 3]; 3] = [[0, 1, 2], [1, 2, 0], [2, 0, 1]];

pub(super) fn add_all(input: &mut Input) {
    let histories = input.one_sky_at::<3>(RECORDS);
    for order in RING {
        let order = order.map(|site| &histories[site][..]);
        input.first_two_first(order);
        input.last_two_first(order);
    }
}

impl Input {
    fn instead_of_the_other(&mut self, history: &History) {
        self.other_station();
        self.fresh();
        self.tell_in_blocks(history);
    }

    /// The third is joined into the two.
    fn first_two_first(&mut self, [first, second, third]: [&History; 3]) {
        self.sites(Input::tell_in_blocks, [first, second]);
        self.join();
        self.instead_of_the_other(third);
        self.other_station();
        self.join();
        self.ask_entries();
    }

    /// They are joined into the first.
    fn last_two_first(&mut self, [first, second, third]: [&History; 3]) {
        self.sites(Input::tell_in_blocks, [second, third]);
        self.join();
        self.instead_of_the_other(first);
        self.join();
        self.ask_entries();
    }
}
