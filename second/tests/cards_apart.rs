//! Each history of the made inputs with and without the calls of all others than one card:
//! its answers, records and tallies are the same. The seed is that of the stored input.

use second::make;
use second::request::{
    whole_requests, Piece, Request, BLOCK, CARRIER, ENTRY, ENTRY_WORDS, FIVE_OF, FRESH, HEALTH,
    IMMEDIATE, NAVIGATION, OFFER, RESET, SUMMARY, TALLIES,
};
use second::station::card::{ONE, TWO};
use second::station::Station;
use second::trial::answer_piece;
use second::trial::sites::Sites;

/// Those that a card's rows answer; the others read the book.
const OF_ROWS: [u8; 6] = [OFFER, RESET, IMMEDIATE, TALLIES, BLOCK, FIVE_OF];
const OF_THE_BOOK: [u8; 6] = [ENTRY, ENTRY_WORDS, SUMMARY, HEALTH, NAVIGATION, CARRIER];

type History<'a> = Vec<Request<'a>>;

/// From one fresh station to the next.
fn histories(input: &[u8]) -> Vec<History<'_>> {
    let requests: Vec<Request> = whole_requests(input).collect();
    let is_fresh = |request: &Request| request.op == FRESH && request.payload.is_empty();
    requests.split(is_fresh).map(<[Request]>::to_vec).collect()
}

fn card_of(request: &Request) -> Option<u8> {
    request.asked_by().map(|(card, _)| card)
}

/// Cards one and two both ask in it.
fn is_of_both(history: &History) -> bool {
    let asks = |card| history.iter().any(|request| card_of(request) == Some(card));
    asks(ONE) && asks(TWO)
}

/// The answers that this card has to requests of these kinds.
fn answers_to(card: u8, ops: &[u8], sites: &mut Sites, history: &[Request]) -> Vec<String> {
    let mut answers = Vec::new();
    for request in history {
        let answer = answer_piece(sites, Piece::Whole(*request));
        match request.asked_by() {
            Some((by, asked)) if by == card && ops.contains(&asked.op) => answers.push(answer),
            _ => (),
        }
    }
    answers
}

/// Those that this card makes, and those that name no card: the stations change places and books
/// are joined as before.
fn made_by<'a>(card: u8, history: &History<'a>) -> History<'a> {
    let own = history
        .iter()
        .filter(|request| card_of(request).is_none_or(|by| by == card));
    own.copied().collect()
}

/// Of every channel number that there can be.
fn require_same_rows(card: u8, first: &Station, second: &Station) {
    for channel in 0..256 {
        assert_eq!(
            first.immediate(card, channel),
            second.immediate(card, channel)
        );
        assert_eq!(first.tallies(card, channel), second.tallies(card, channel));
    }
}

/// With all calls and with one card's alone, from these stations on.
fn require_apart(start: &Sites, history: &History) {
    for card in [ONE, TWO] {
        let (mut all, mut alone) = (start.clone(), start.clone());
        let answers = answers_to(card, &OF_ROWS, &mut all, history);
        let own = made_by(card, history);
        let expected = answers_to(card, &OF_ROWS, &mut alone, &own);
        assert_eq!(answers, expected, "card {card}");
        require_same_rows(card, &all.in_use, &alone.in_use);
        require_same_rows(card, &all.set_aside, &alone.set_aside);
    }
}

#[test]
fn every_history_answers_a_card_as_if_it_were_alone() {
    let input = make::trial_input(20260);
    let histories = histories(&input);
    let of_both = histories.iter().filter(|history| is_of_both(history));
    assert!(of_both.count() > 100);
    for history in &histories {
        require_apart(&Sites::default(), history);
    }
}

#[test]
fn the_histories_near_the_limit_answer_a_card_as_if_it_were_alone() {
    let input = make::limit_input();
    let histories = histories(&input);
    assert!(histories.iter().any(is_of_both));
    let start = Sites::with_in_use(Station::with_tallies_at(4_294_967_293));
    for history in &histories {
        require_apart(&start, history);
    }
}

/// "Only book entries, the summary, and health, which reads the book, may differ": each of
/// them does, for either card, and so does the navigation record.
#[test]
fn what_reads_the_book_differs_in_some_history() {
    let input = make::trial_input(20260);
    for card in [ONE, TWO] {
        for op in OF_THE_BOOK {
            let differs = |history: &History| {
                let (mut all, mut alone) = (Sites::default(), Sites::default());
                let own = made_by(card, history);
                answers_to(card, &[op], &mut all, history)
                    != answers_to(card, &[op], &mut alone, &own)
            };
            let mut of_both = histories(&input).into_iter().filter(is_of_both);
            assert!(of_both.any(|history| differs(&history)), "{card}: {op}");
        }
    }
}
