//! Encoded values and blocks, each held as one number of 128 bits that begins at its highest bit.

use super::fault::{Fault, Part, Refusal};
use super::field::Coordinates;

/// The bytes of an encoded value.
pub const fn encoded_size<F: Coordinates>() -> usize {
    (F::COUNT * F::WIDTH).div_ceil(8)
}

/// The bytes of a block.
pub const fn block_size<F: Coordinates>() -> usize {
    F::COUNT * (F::WIDTH - 1) / 8
}

/// At most sixteen bytes as one number, filled up with zeros.
fn bits_of(bytes: &[u8]) -> u128 {
    let mut all = [0; 16];
    all[..bytes.len()].copy_from_slice(bytes);
    u128::from_be_bytes(all)
}

/// The number in the `width` bits from `width` times `place` on.
fn group(bits: u128, width: usize, place: usize) -> u16 {
    (bits << (width * place) >> (128 - width)) as u16
}

pub fn encode<F: Coordinates>(value: F, out: &mut [u8]) -> Result<(), Fault> {
    if out.len() != encoded_size::<F>() {
        return Err(Fault::of_call(Refusal::WrongSize));
    }
    let mut bits = 0;
    for power in 0..F::COUNT {
        bits = bits << F::WIDTH | u128::from(value.coefficient(power));
    }
    bits <<= 128 - F::COUNT * F::WIDTH;
    out.copy_from_slice(&bits.to_be_bytes()[..encoded_size::<F>()]);
    Ok(())
}

pub fn decode<F: Coordinates>(part: Part, bytes: &[u8]) -> Result<F, Fault> {
    if bytes.len() != encoded_size::<F>() {
        return Err(Fault::new(Refusal::WrongSize, part, 0));
    }
    let bits = bits_of(bytes);
    let at = |power| group(bits, F::WIDTH, power);
    if let Some(power) = (0..F::COUNT).find(|power| at(*power) >= F::MODULUS) {
        return Err(Fault::new(Refusal::CoefficientOutOfRange, part, power));
    }
    if bits << (F::COUNT * F::WIDTH) != 0 {
        return Err(Fault::new(Refusal::PaddingNotZero, part, 0));
    }
    Ok(F::build(at))
}

/// The value that a block of at most the block size stands for.
pub fn from_block<F: Coordinates>(block: &[u8]) -> F {
    let bits = bits_of(block);
    F::build(|power| group(bits, F::WIDTH - 1, power))
}
