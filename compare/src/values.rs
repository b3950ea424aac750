//! Cases about values: products, inverses, encodings, decodings and tags.
//!
//! The forms take turns. Most inputs are good ones, with a liking for the ends of the ranges; some
//! are damaged so that each refusal comes up.

use crate::case::Case;
use crate::coding;
use crate::fault::Part;
use crate::field::{Field, Form};
use crate::random::Random;
use crate::tag::LONGEST_BODY;

/// A product; one in about twenty-five has a damaged factor.
pub fn product(random: &mut Random, turn: usize) -> Case {
    let form = form(turn);
    let mut factor = || {
        if random.once_in(50) {
            damaged_coefficients(random, form.field())
        } else {
            coefficients(random, form.field())
        }
    };
    Case::Product {
        form,
        a: factor(),
        b: factor(),
    }
}

/// An inverse; some of zero, some of a damaged value.
pub fn inverse(random: &mut Random, turn: usize) -> Case {
    let form = form(turn);
    let field = form.field();
    let a = match random.below(40) {
        0 => vec![0; field.count],
        1 => damaged_coefficients(random, field),
        _ => coefficients(random, field),
    };
    Case::Inverse { form, a }
}

/// An encoding; sometimes the value is damaged or the room is wrong, or both.
pub fn encode(random: &mut Random, turn: usize) -> Case {
    let form = form(turn);
    let field = form.field();
    let a = if random.once_in(20) {
        damaged_coefficients(random, field)
    } else {
        coefficients(random, field)
    };
    let size = field.encoded_size();
    let room = if random.once_in(20) {
        *random.choice(&[0, 1, size - 1, size + 1, 2 * size])
    } else {
        size
    };
    Case::Encode { form, a, room }
}

/// A decoding: of an encoding, of a damaged one, or of any bytes.
pub fn decode(random: &mut Random, turn: usize) -> Case {
    let form = form(turn);
    let field = form.field();
    let bytes = match random.below(4) {
        0 => random.bytes(field.encoded_size()),
        1 => damaged_encoding(random, field),
        2 => {
            let mut bytes = encoding(random, field);
            let place = random.below(bytes.len());
            bytes[place] ^= 1 << random.below(8);
            bytes
        }
        _ => encoding(random, field),
    };
    Case::Decode { form, bytes }
}

/// A tag. The lengths go round from 0 to a few above the longest body.
pub fn tag(random: &mut Random, turn: usize) -> Case {
    let form = form(turn);
    let field = form.field();
    let mut value = || match random.below(40) {
        0 => damaged_encoding(random, field),
        1 => vec![0; field.encoded_size()],
        _ => encoding(random, field),
    };
    let (key, pad) = (value(), value());
    let length = if random.once_in(500) {
        random.within(LONGEST_BODY + 1..=70_000)
    } else {
        turn / Form::ALL.len() % (LONGEST_BODY + 6)
    };
    let body = match random.below(8) {
        0 => vec![0xFF; length],
        1 => vec![0x00; length],
        _ => random.bytes(length),
    };
    Case::Tag {
        form,
        key,
        pad,
        body,
    }
}

fn form(turn: usize) -> Form {
    Form::ALL[turn % Form::ALL.len()]
}

/// Any coefficient, often one at an end of the range.
fn coefficient(random: &mut Random, field: Field) -> u16 {
    let modulus = usize::try_from(field.modulus).expect("moduli are small");
    let number = match random.below(8) {
        0 => 0,
        1 => random.below(3),
        2 => modulus - 1 - random.below(3),
        3 => 1 << random.below(10),
        _ => random.below(modulus),
    };
    small(number)
}

/// Coefficients of a value.
pub fn coefficients(random: &mut Random, field: Field) -> Vec<u16> {
    let last = small(usize::try_from(field.modulus).expect("moduli are small") - 1);
    match random.below(16) {
        // All the largest.
        0 => vec![last; field.count],
        // All but one are 0.
        1 => {
            let mut numbers = vec![0; field.count];
            numbers[random.below(field.count)] = coefficient(random, field);
            numbers
        }
        // Only every second or every fourth power: a value of a smaller field.
        2 => {
            let step = *random.choice(&[2, 4]);
            (0..field.count)
                .map(|power| match power % step {
                    0 => coefficient(random, field),
                    _ => 0,
                })
                .collect()
        }
        _ => (0..field.count)
            .map(|_| coefficient(random, field))
            .collect(),
    }
}

/// Numbers that are no coefficients of a value: too few, too many, or out of range.
fn damaged_coefficients(random: &mut Random, field: Field) -> Vec<u16> {
    let mut numbers = coefficients(random, field);
    let shape = random.below(6);
    match shape {
        0 => numbers.truncate(random.below(field.count)),
        1 => numbers.extend(coefficients(random, field)),
        _ => {}
    }
    if shape != 0 && (shape > 1 || random.once_in(2)) {
        for _ in 0..random.within(1..=2) {
            let place = random.below(numbers.len());
            numbers[place] = out_of_range(random, field, 0xFFFF);
        }
    }
    numbers
}

/// A number that is not below the modulus.
fn out_of_range(random: &mut Random, field: Field, last: usize) -> u16 {
    let modulus = usize::try_from(field.modulus).expect("moduli are small");
    small(match random.below(3) {
        0 => modulus,
        1 => last,
        _ => random.within(modulus..=last),
    })
}

/// The encoding of any value.
pub fn encoding(random: &mut Random, field: Field) -> Vec<u8> {
    let numbers = coefficients(random, field);
    let value = field
        .value(Part::Call, &numbers)
        .expect("good coefficients");
    coding::encode(&value)
}

/// Bytes that encode nothing: of another size, or with a coefficient out of range, or with a
/// padding bit where there is one.
pub fn damaged_encoding(random: &mut Random, field: Field) -> Vec<u8> {
    let size = field.encoded_size();
    if random.once_in(5) {
        let wrong = [0, 1, size - 1, size + 1, 2 * size];
        let length = *random.choice(&wrong);
        return random.bytes(length);
    }
    let mut numbers = coefficients(random, field);
    if field.padding_bits() > 0 && random.once_in(3) {
        let padding = random.within(1..=(1 << field.padding_bits()) - 1);
        return coding::encode_numbers(field, &numbers, padding as u128);
    }
    for _ in 0..random.within(1..=2) {
        let place = random.below(numbers.len());
        numbers[place] = out_of_range(random, field, (1 << field.width) - 1);
    }
    let padding = u128::from(random.byte());
    coding::encode_numbers(field, &numbers, padding)
}

fn small(number: usize) -> u16 {
    u16::try_from(number).expect("coefficients have 16 bits")
}
