//! "After a string is taken at epoch e, frames at a steady 15-epoch beat are heard
//! again."

use second::station::Station;
use second::string::NavString;

use crate::strings::*;

fn frame() -> Vec<NavString> {
    let mut strings = strings_1_to_4(0, 1).to_vec();
    strings.push(string_5(6, 1));
    strings.extend(five_pairs(1));
    strings
}

/// For every m of the string held and every beat: the first frame that starts 15 or
/// more after the held start begins by e + 29, and all its strings are taken,
/// whatever came of the frames before it.
#[test]
fn the_first_frame_15_or_more_after_the_held_start_is_taken_whole() {
    let e = 1000;
    for m in 1..=15 {
        let held_start = e - (m - 1);
        for beat in 0..15 {
            let mut station = Station::default();
            offer(&mut station, 0, e, &with_m(&string_3(), m as usize)).unwrap();
            let first = (held_start + 15..)
                .find(|start| start % 15 == beat)
                .unwrap();
            assert!(first <= e + 29);
            for string in frame() {
                let earlier = offer_in_frame(&mut station, 0, first - 15, &string);
                let same_frame = first - 15 == held_start;
                assert!(earlier.is_err() || same_frame, "m {m}, beat {beat}");
            }
            take_all(&mut station, 0, first, &frame());
        }
    }
}

/// m = 1 at e, and frames that start at e + 14, e + 29: the former is off beat.
#[test]
fn the_bound_is_reached() {
    let mut station = Station::default();
    take_all(&mut station, 0, 1000, &[string_1(0)]);
    for string in frame() {
        assert!(offer_in_frame(&mut station, 0, 1014, &string).is_err());
    }
    take_all(&mut station, 0, 1029, &frame());
}
