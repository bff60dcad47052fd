//! The station: frames, record, book, its summary, health, tallies, two cards, blocks, books
//! joined, and the listing, navigation records and their file over it.

mod block;
mod book;
mod calls;
mod cards;
mod exchange;
mod frames;
mod health;
mod isolation;
mod join;
mod join_and_calls;
mod join_and_cards;
mod listing;
mod navigation;
mod navigation_file;
mod polarity;
mod record;
mod refusals;
mod relock;
mod sites;
mod sky;
mod strings;
mod summary;
mod summary_asked;
mod tallies;
mod two_cards;
