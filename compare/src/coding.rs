//! Encoded values and blocks, each read as one large whole number.
//!
//! The coefficients are the digits of the number, the one of power 0 the highest; behind them
//! stand the padding bits. The bytes are the digits of the same number in base 256.

use crate::fault::{Fault, Part, Refusal};
use crate::field::{Field, Value};

impl Field {
    /// How many bytes an encoded value takes.
    pub fn encoded_size(self) -> usize {
        self.bits(self.width).div_ceil(8)
    }

    /// How many bytes of a body make one block.
    pub fn block_size(self) -> usize {
        self.bits(self.width - 1) / 8
    }

    /// How many bits all coefficients take, if each takes so many.
    fn bits(self, width: u32) -> usize {
        self.count * usize::try_from(width).expect("widths are small")
    }

    /// How many bits of an encoding are left over behind the coefficients.
    pub fn padding_bits(self) -> usize {
        8 * self.encoded_size() - self.bits(self.width)
    }

    /// The number by which an encoding leaves its padding bits.
    fn padding(self) -> u128 {
        1 << self.padding_bits()
    }
}

/// The encoding of a value.
pub fn encode(value: &Value) -> Vec<u8> {
    encode_numbers(value.field(), &value.coefficients(), 0)
}

/// What an encoding would be with these numbers, each below 2^width, for coefficients and with this
/// number in the padding bits. It may well be one that cannot be decoded.
pub fn encode_numbers(field: Field, numbers: &[u16], padding: u128) -> Vec<u8> {
    let number = joined(1 << field.width, numbers.iter().copied());
    let bytes = cut(
        number * field.padding() + padding % field.padding(),
        256,
        field.encoded_size(),
    );
    bytes
        .into_iter()
        .map(|digit| u8::try_from(digit).expect("a digit is below 256"))
        .collect()
}

/// The value that the bytes encode.
///
/// # Errors
///
/// `WrongSize` for another count of bytes, then `CoefficientOutOfRange` at the lowest power that
/// is out of range, then `PaddingNotZero`; each with the part that the bytes are.
pub fn decode(field: Field, part: Part, bytes: &[u8]) -> Result<Value, Fault> {
    if bytes.len() != field.encoded_size() {
        return Err(Fault::new(Refusal::WrongSize, part, 0));
    }
    let number = joined(256, bytes.iter().copied());
    let numbers = cut(number / field.padding(), 1 << field.width, field.count);
    let value = field.value(part, &numbers)?;
    if !number.is_multiple_of(field.padding()) {
        return Err(Fault::new(Refusal::PaddingNotZero, part, 0));
    }
    Ok(value)
}

/// The value of a block: its bits in groups that are one bit narrower than a coefficient.
///
/// # Errors
///
/// `WrongSize` for more bytes than a block has.
pub fn block(field: Field, bytes: &[u8]) -> Result<Value, Fault> {
    let bits = field.bits(field.width - 1);
    if bytes.len() > field.block_size() {
        return Err(Refusal::WrongSize.into());
    }
    let missing = bits - 8 * bytes.len();
    let number = joined(256, bytes.iter().copied()) << missing;
    field.value(
        Part::Call,
        &cut(number, 1 << (field.width - 1), field.count),
    )
}

/// The number that the digits write in a base, the highest first.
fn joined<D: Into<u128>>(base: u128, digits: impl Iterator<Item = D>) -> u128 {
    digits.fold(0, |number, digit| number * base + digit.into())
}

/// The lowest digits of a number in a base, the highest first.
fn cut(number: u128, base: u128, count: usize) -> Vec<u16> {
    let mut rest = number;
    let mut digits = vec![0; count];
    for digit in digits.iter_mut().rev() {
        *digit = u16::try_from(rest % base).expect("bases are small");
        rest /= base;
    }
    digits
}

#[cfg(test)]
mod tests {
    use super::*;
    use crate::field::{Form, by_power};
    use crate::hex;
    use crate::random::Random;

    const SHORT: Field = Field::at_4093(2);
    const SMALL: Field = Field::at_1021(2);
    const EIGHT: Field = Field::at_4093(8);
    const SMALL_EIGHT: Field = Field::at_1021(8);

    fn encoded(field: Field, numbers: &[u16]) -> String {
        hex::of_bytes(&encode(&field.value(Part::Call, numbers).expect("a value")))
    }

    fn decoded(field: Field, bytes: &str) -> Result<Vec<u16>, String> {
        decode(field, Part::Call, &hex::bytes(bytes))
            .map(|value| value.coefficients())
            .map_err(|fault| fault.to_string())
    }

    fn blocked(field: Field, bytes: &str) -> Vec<u16> {
        block(field, &hex::bytes(bytes))
            .expect("a block")
            .coefficients()
    }

    fn refused<T>(fault: &str) -> Result<T, String> {
        Err(fault.to_owned())
    }

    /// Bits as text, the most significant first.
    fn bits_of(number: usize, width: usize) -> String {
        format!("{number:0width$b}")
    }

    #[test]
    fn sizes() {
        let sizes = |field: Field| {
            let bits = field.padding_bits();
            (field.encoded_size(), field.block_size(), bits)
        };
        assert_eq!(sizes(SHORT), (3, 2, 0));
        assert_eq!(sizes(SMALL), (3, 2, 4));
        assert_eq!(sizes(EIGHT), (12, 11, 0));
        assert_eq!(sizes(SMALL_EIGHT), (10, 9, 0));
    }

    #[test]
    fn encodings() {
        let one_to_eight = [1, 2, 3, 4, 5, 6, 7, 8];
        assert_eq!(encoded(SHORT, &[3, 5]), "003005");
        assert_eq!(encoded(SHORT, &[0, 4092]), "000FFC");
        assert_eq!(encoded(SMALL, &[3, 5]), "00C050");
        assert_eq!(encoded(SMALL, &[1020, 1020]), "FF3FC0");
        assert_eq!(encoded(EIGHT, &one_to_eight), "001002003004005006007008");
        let tower = by_power(&[1, 5, 3, 7, 2, 6, 4, 8]);
        assert_eq!(encoded(EIGHT, &tower), "001002003004005006007008");
        assert_eq!(encoded(SMALL_EIGHT, &one_to_eight), "0040200C040140601C08");
        let edge = [1, 0, 0, 0, 0, 0, 0, 4092];
        assert_eq!(encoded(EIGHT, &edge), "001000000000000000000FFC");
    }

    #[test]
    fn decodings() {
        assert_eq!(decoded(SHORT, "00 30 05"), Ok(vec![3, 5]));
        assert_eq!(decoded(SHORT, "00 30"), refused("refused 3 0 0"));
        assert_eq!(decoded(SHORT, "00 0F FD"), refused("refused 1 0 1"));
        assert_eq!(decoded(SHORT, "FF DF FF"), refused("refused 1 0 0"));
        assert_eq!(decoded(SMALL, "00 00 01"), refused("refused 4 0 0"));
        assert_eq!(decoded(SMALL, "00 3F D1"), refused("refused 1 0 1"));
        assert_eq!(
            decoded(EIGHT, "00 10 00 00 00 00 00 00 00 00 0F FD"),
            refused("refused 1 0 7")
        );
    }

    #[test]
    fn a_fault_of_decoding_carries_the_part() {
        let fault = |part, bytes: &str| {
            decode(SMALL, part, &hex::bytes(bytes))
                .expect_err("refused")
                .to_string()
        };
        assert_eq!(fault(Part::Key, "00"), "refused 3 1 0");
        assert_eq!(fault(Part::Pad, "00 3F D1"), "refused 1 2 1");
        assert_eq!(fault(Part::Tag, "00 00 08"), "refused 4 3 0");
    }

    #[test]
    fn blocks() {
        assert_eq!(blocked(SHORT, "00 45"), [2, 320]);
        assert_eq!(blocked(SMALL, "00 45"), [0, 276]);
        assert_eq!(blocked(SHORT, "FF FF"), [2047, 1984]);
        assert_eq!(blocked(SHORT, "48"), [576, 0]);
        assert_eq!(
            blocked(EIGHT, &format!("80{}", "00".repeat(10))),
            [1024, 0, 0, 0, 0, 0, 0, 0]
        );
        assert_eq!(
            blocked(SMALL_EIGHT, &format!("80{}", "00".repeat(8))),
            [256, 0, 0, 0, 0, 0, 0, 0]
        );
        assert_eq!(
            blocked(EIGHT, "64 75 6C 74"),
            [803, 1371, 232, 0, 0, 0, 0, 0]
        );
        assert_eq!(blocked(SHORT, ""), [0, 0]);
        assert_eq!(block(SHORT, &[0; 3]), Err(Refusal::WrongSize.into()));
        assert_eq!(block(EIGHT, &[0; 12]), Err(Refusal::WrongSize.into()));
    }

    #[test]
    fn encodings_and_blocks_agree_with_written_bits() {
        let mut random = Random::new(3);
        for form in Form::ALL {
            let field = form.field();
            let width = usize::try_from(field.width).expect("small");
            for _ in 0..200 {
                let numbers: Vec<u16> = (0..field.count)
                    .map(|_| u16::try_from(random.below(1021)).expect("small"))
                    .collect();
                let mut bits: String = numbers
                    .iter()
                    .map(|number| bits_of(usize::from(*number), width))
                    .collect();
                while !bits.len().is_multiple_of(8) {
                    bits.push('0');
                }
                let value = field.value(Part::Call, &numbers).expect("a value");
                let written: String = encode(&value)
                    .iter()
                    .map(|byte| bits_of(usize::from(*byte), 8))
                    .collect();
                assert_eq!(written, bits);
                assert_eq!(decode(field, Part::Call, &encode(&value)), Ok(value));

                let length = random.within(0..=field.block_size());
                let bytes = random.bytes(length);
                let mut bits: String = bytes
                    .iter()
                    .map(|byte| bits_of(usize::from(*byte), 8))
                    .collect();
                while bits.len() < field.count * (width - 1) {
                    bits.push('0');
                }
                let value = block(field, &bytes).expect("a block");
                let written: String = value
                    .coefficients()
                    .iter()
                    .map(|number| bits_of(usize::from(*number), width - 1))
                    .collect();
                assert_eq!(written, bits);
            }
        }
    }
}
