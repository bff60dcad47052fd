//! A second, independent program for GLONASS navigation strings.
//!
//! It is written from the paper and GLONASS ICD 5.0 alone and is compared with
//! the receiver card's own library, answer by answer.

pub mod alter;
pub mod block;
pub mod framing;
pub mod hamming;
pub mod host;
pub mod known;
pub mod listing;
pub mod logger;
pub mod make;
pub mod navigation;
pub mod random;
pub mod ranging;
pub mod refusal;
pub mod relative;
pub mod request;
pub mod salvage;
pub mod scaled;
pub mod sky;
pub mod station;
pub mod stream;
pub mod string;
pub mod trial;
pub mod words;
