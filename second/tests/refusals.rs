//! The numbers of the paper's table, 31 to 33 in the position of 3, 15 and 16 for cards, 17 for
//! navigation records, 18 for skies, 41 to 43 for the fields of a block, 44 and 45 for salvage,
//! and SHAPE and IDLE where strings come in.

use second::known::{a, A};
use second::refusal::{FieldTrouble, Refusal, Room};
use second::relative::to_relative;
use second::station::tallies::CAUSES;
use second::string::NavString;

#[test]
fn numbers_are_those_of_the_table() {
    let others = [
        Refusal::Range { place: 69 },
        Refusal::Place,
        Refusal::Room,
        Refusal::Nothing,
        Refusal::Slot,
        Refusal::Owner,
        Refusal::Card,
        Refusal::RecordRoom,
        Refusal::Order,
        Refusal::Field {
            trouble: FieldTrouble::UnknownTag,
            place: 0,
        },
        Refusal::Field {
            trouble: FieldTrouble::WrongLength,
            place: 0,
        },
        Refusal::Field {
            trouble: FieldTrouble::EndsInside,
            place: 0,
        },
        Refusal::Full {
            room: Room::Output,
            byte: 0,
        },
        Refusal::Full {
            room: Room::List,
            byte: 0,
        },
    ];
    let in_order = [&[Refusal::Channel][..], &CAUSES, &others].concat();
    let numbers: Vec<u8> = in_order.iter().map(|refusal| refusal.number()).collect();
    let expected = [1, 2, 31, 32, 33].into_iter().chain(4..=18).chain(41..=45);
    assert_eq!(numbers, expected.collect::<Vec<u8>>());
}

#[test]
fn only_range_a_field_and_a_torn_file_name_a_place() {
    assert_eq!(Refusal::Shape.to_string(), "no 2");
    assert_eq!(Refusal::Range { place: 69 }.to_string(), "no 10 69");
    let refusal = Refusal::Field {
        trouble: FieldTrouble::EndsInside,
        place: 70_000,
    };
    assert_eq!(refusal.to_string(), "no 43 70000");
    let refusal = Refusal::Full {
        room: Room::List,
        byte: 4,
    };
    assert_eq!(refusal.to_string(), "no 45 4");
}

#[test]
fn every_length_but_eleven_is_shape() {
    for length in (0..40).filter(|&length| length != 11) {
        let bytes = vec![0; length];
        assert_eq!(NavString::from_bytes(&bytes), Err(Refusal::Shape));
    }
}

#[test]
fn every_padding_but_zero_is_shape() {
    for padding in 1..=7 {
        let mut bytes = A;
        bytes[10] |= padding;
        assert_eq!(NavString::from_bytes(&bytes), Err(Refusal::Shape));
    }
}

#[test]
fn writing_relative_code_with_bit_85_set_is_idle() {
    assert_eq!(to_relative(&a().flipped(&[85])), Err(Refusal::Idle));
}
