//! What all sides work on. The same rules stand in `rivals/common.h`.

use crate::plain::coding::encode;
use crate::plain::field::Coordinates;
use crate::plain::polynomial::Polynomial;
use crate::plain::prime::P4093;
use crate::plain::tag::make_tag;

/// The form of validators and shifts.
type Form = Polynomial<P4093>;

/// The first value: its coefficients by power.
pub fn first(modulus: u16, count: usize) -> Vec<u16> {
    (0..count).map(|k| ((1000 + 777 * k) % usize::from(modulus)) as u16).collect()
}

/// The second value.
pub fn second(modulus: u16, count: usize) -> Vec<u16> {
    (0..count).map(|k| ((55 + 1777 * k) % usize::from(modulus)) as u16).collect()
}

/// A body of that length.
pub fn body(length: usize) -> Vec<u8> {
    (0..length).map(|k| (11 + 37 * k) as u8).collect()
}

/// Sixteen encodings of values that differ.
pub fn encodings<F: Coordinates>(size: usize) -> Vec<u8> {
    let mut bytes = vec![0; 16 * size];
    for (turn, place) in bytes.chunks_exact_mut(size).enumerate() {
        let value = F::build(|power| ((17 + 1291 * turn + 613 * power) % usize::from(F::MODULUS)) as u16);
        encode(value, place).expect("of the right size");
    }
    bytes
}

fn encoded(value: Form) -> Vec<u8> {
    let mut bytes = vec![0; 12];
    encode(value, &mut bytes).expect("of the right size");
    bytes
}

fn key_value() -> Form {
    Form::build(|power| first(4093, 8)[power])
}

fn pad_value(number: usize) -> Form {
    Form::build(|power| ((29 + 389 * number + 1741 * power) % 4093) as u16)
}

/// The encoded key of validators.
pub fn key() -> Vec<u8> {
    encoded(key_value())
}

/// All 1024 pads.
pub fn pads() -> Vec<u8> {
    (0..1024).flat_map(|number| encoded(pad_value(number))).collect()
}

/// The right ticket of a number, with a body of that length.
fn ticket(number: usize, length: usize) -> Vec<u8> {
    let mut bytes = body(length);
    let head = (number * 64 + number % 64) as u16;
    bytes[..2].copy_from_slice(&head.to_be_bytes());
    let tag = make_tag(key_value(), pad_value(number), &bytes).expect("of a right length");
    bytes.extend(encoded(tag));
    bytes
}

/// The tickets of all numbers, with bodies of that length.
pub fn tickets(length: usize) -> Vec<u8> {
    (0..1024).flat_map(|number| ticket(number, length)).collect()
}

/// The bytes of a ticket's body in a shift.
const BODY_IN_SHIFT: usize = 44;

/// The longest input of a shift, 49152 bytes: all pads and as many checks as fit, each eighth record a cancel or a report.
/// The tickets are right but for one in nine.
pub fn shift() -> Vec<u8> {
    let mut input = [key(), vec![4, 0], pads()].concat();
    for turn in 0.. {
        let record = match turn % 16 {
            7 => (0x8000 + (turn * 5 % 1024) as u16).to_be_bytes().to_vec(),
            15 => (0xC000 + (turn % 64) as u16).to_be_bytes().to_vec(),
            _ => check_record(turn),
        };
        if input.len() + record.len() > crate::plain::shift::LONGEST_INPUT {
            break;
        }
        input.extend(record);
    }
    // What is left is filled with reports, and one byte that no record begins with.
    while input.len() + 2 <= crate::plain::shift::LONGEST_INPUT {
        input.extend([0xC0, 0x05]);
    }
    input
}

fn check_record(turn: usize) -> Vec<u8> {
    let mut bytes = ticket(turn % 1024, BODY_IN_SHIFT);
    if turn % 9 == 4 {
        bytes[BODY_IN_SHIFT - 1] ^= 1;
    }
    let head = (0x4000 + bytes.len()) as u16;
    [&head.to_be_bytes()[..], &bytes].concat()
}
