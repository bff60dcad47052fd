//! Requests 21 and 22: the station of another site, and its book joined into that of the one in
//! use. Neither names a card.

use std::mem;

use super::station::{no_byte, summary};
use super::Answer;
use crate::station::card::ONE;
use crate::station::Station;

/// Two stations. All requests but these two are for the one in use.
#[derive(Clone, Debug, Default, PartialEq, Eq)]
pub struct Sites {
    pub in_use: Station,
    pub set_aside: Station,
}

impl Sites {
    /// This one is in use; the one set aside is fresh.
    pub fn with_in_use(in_use: Station) -> Sites {
        Sites {
            in_use,
            set_aside: Station::default(),
        }
    }
}

/// The two change places.
pub fn exchange(sites: &mut Sites, payload: &[u8]) -> Option<Answer> {
    no_byte(payload)?;
    mem::swap(&mut sites.in_use, &mut sites.set_aside);
    Some(Ok(String::from("ok")))
}

/// The summary of the joined book; the one set aside stays as it is.
pub fn join(sites: &mut Sites, payload: &[u8]) -> Option<Answer> {
    no_byte(payload)?;
    sites.in_use.join_book_of(&sites.set_aside);
    summary(&sites.in_use, ONE, payload)
}
