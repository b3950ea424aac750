//! Bodies, tags, pads and tickets.
//!
//! A tag is the pad and a sum in which each block has its own power of the key: the length block
//! the first power, the last block of the body the second, and so on upward to the first block.

use crate::coding;
use crate::fault::{Fault, Part, Refusal};
use crate::field::{Field, Value};

/// How many ticket numbers there are.
pub const NUMBERS: usize = 1024;
/// How many routes there are.
pub const ROUTES: usize = 64;
/// The longest text of a body.
pub const LONGEST_TEXT: usize = 438;
/// The longest body.
pub const LONGEST_BODY: usize = LONGEST_TEXT + 2;

/// What a body says.
#[derive(Clone, Copy, Debug, PartialEq, Eq)]
pub struct Body<'bytes> {
    /// The ticket number, below 1024.
    pub number: usize,
    /// The route, below 64.
    pub route: usize,
    /// The text behind both.
    pub text: &'bytes [u8],
}

impl<'bytes> Body<'bytes> {
    /// Reads a body.
    ///
    /// # Errors
    ///
    /// `WrongLength` outside 2 to 440 bytes.
    pub fn open(bytes: &'bytes [u8]) -> Result<Self, Fault> {
        match bytes {
            [first, second, text @ ..] if text.len() <= LONGEST_TEXT => {
                let head = 256 * usize::from(*first) + usize::from(*second);
                Ok(Self {
                    number: head / ROUTES,
                    route: head % ROUTES,
                    text,
                })
            }
            _ => Err(Refusal::WrongLength.into()),
        }
    }

    /// The bytes of the body.
    ///
    /// # Errors
    ///
    /// `NumberOutOfRange`, `RouteOutOfRange`, `WrongLength` for a long text, in this order.
    pub fn bytes(&self) -> Result<Vec<u8>, Fault> {
        if self.number >= NUMBERS {
            return Err(Refusal::NumberOutOfRange.into());
        }
        if self.route >= ROUTES {
            return Err(Refusal::RouteOutOfRange.into());
        }
        if self.text.len() > LONGEST_TEXT {
            return Err(Refusal::WrongLength.into());
        }
        Ok([&two_bytes(self.number * ROUTES + self.route), self.text].concat())
    }
}

/// A number below 65536 in two bytes, the most significant first.
pub fn two_bytes(number: usize) -> [u8; 2] {
    u16::try_from(number).expect("below 65536").to_be_bytes()
}

/// The values of a body's blocks in order, and of the length block behind them.
fn blocks(field: Field, body: &[u8]) -> Vec<Value> {
    let length = two_bytes(body.len());
    body.chunks(field.block_size())
        .chain([&length[..]])
        .map(|bytes| coding::block(field, bytes).expect("cut to the size of a block"))
        .collect()
}

/// The tag of a body under a key and a pad.
///
/// # Errors
///
/// `WrongLength` for a body outside 2 to 440 bytes.
pub fn tag(key: Value, pad: Value, body: &[u8]) -> Result<Value, Fault> {
    Body::open(body)?;
    let powers = std::iter::successors(Some(key), |power| Some(*power * key));
    let terms = blocks(key.field(), body)
        .into_iter()
        .rev()
        .zip(powers)
        .map(|(block, power)| block * power);
    Ok(terms.fold(pad, |sum, term| sum + term))
}

/// How many pads there are.
///
/// # Errors
///
/// `BadPads` if they are not 1 to 1024 whole encodings.
pub fn count_pads(field: Field, pads: &[u8]) -> Result<usize, Fault> {
    (1..=NUMBERS)
        .find(|count| count * field.encoded_size() == pads.len())
        .ok_or(Refusal::BadPads.into())
}

/// The pad of a ticket number.
///
/// # Errors
///
/// `BadPads`, `NumberOutOfRange` for a number that has no pad, then those of decoding it.
pub fn read_pad(field: Field, pads: &[u8], number: usize) -> Result<Value, Fault> {
    count_pads(field, pads)?;
    let pad = pads
        .chunks(field.encoded_size())
        .nth(number)
        .ok_or(Fault::from(Refusal::NumberOutOfRange))?;
    coding::decode(field, Part::Pad, pad)
}

/// The body of a ticket whose tag is right under this key.
///
/// # Errors
///
/// `WrongLength`, then those of reading the pad, those of decoding the tag, and `FalseTag`.
pub fn check_ticket<'ticket>(
    key: Value,
    pads: &[u8],
    ticket: &'ticket [u8],
) -> Result<Body<'ticket>, Fault> {
    let field = key.field();
    let (body, end) = ticket
        .len()
        .checked_sub(field.encoded_size())
        .map(|length| ticket.split_at(length))
        .ok_or(Fault::from(Refusal::WrongLength))?;
    let opened = Body::open(body)?;
    let pad = read_pad(field, pads, opened.number)?;
    let claimed = coding::decode(field, Part::Tag, end)?;
    if claimed != tag(key, pad, body)? {
        return Err(Refusal::FalseTag.into());
    }
    Ok(opened)
}

#[cfg(test)]
mod tests {
    use super::*;
    use crate::hex;
    use crate::random::Random;

    const SHORT: Field = Field::at_4093(2);
    const SMALL: Field = Field::at_1021(2);
    const EIGHT: Field = Field::at_4093(8);

    fn value(field: Field, bytes: &str) -> Value {
        coding::decode(field, Part::Call, &hex::bytes(bytes)).expect("an encoding")
    }

    fn tagged(field: Field, key: &str, pad: &str, body: &str) -> String {
        let tag = tag(value(field, key), value(field, pad), &hex::bytes(body));
        hex::of_bytes(&coding::encode(&tag.expect("a body")))
    }

    fn checked(pads: &str, ticket: &str) -> Result<(usize, usize, String), String> {
        check_ticket(
            value(SHORT, "003005"),
            &hex::bytes(pads),
            &hex::bytes(ticket),
        )
        .map(|body| (body.number, body.route, hex::of_bytes(body.text)))
        .map_err(|fault| fault.to_string())
    }

    fn refused<T>(fault: &str) -> Result<T, String> {
        Err(fault.to_owned())
    }

    #[test]
    fn bodies() {
        let bytes = |number, route, text| {
            let body = Body {
                number,
                route,
                text,
            };
            let bytes = body.bytes().map_err(|fault| fault.to_string())?;
            assert_eq!(Body::open(&bytes), Ok(body));
            Ok(hex::of_bytes(&bytes))
        };
        assert_eq!(bytes(0, 5, &[]), Ok("0005".to_owned()));
        assert_eq!(bytes(1, 5, b"Hi\0"), Ok("0045486900".to_owned()));
        assert_eq!(bytes(300, 17, &[]), Ok("4B11".to_owned()));
        assert_eq!(bytes(1023, 63, &[]), Ok("FFFF".to_owned()));
        assert_eq!(bytes(1024, 64, &[0; 439]), refused("refused 8 0 0"));
        assert_eq!(bytes(1023, 64, &[0; 439]), refused("refused 17 0 0"));
        assert_eq!(bytes(1023, 63, &[0; 439]), refused("refused 5 0 0"));
        assert!(bytes(1023, 63, &[0; 438]).is_ok());
        for length in [0, 1, 441, 1000] {
            assert_eq!(
                Body::open(&vec![0; length]),
                Err(Refusal::WrongLength.into())
            );
        }
    }

    #[test]
    fn cutting_into_blocks() {
        let count = |field, length: usize| blocks(field, &vec![0; length]).len() - 1;
        assert_eq!(count(SHORT, 440), 220);
        assert_eq!(count(EIGHT, 440), 40);
        assert_eq!(count(Field::at_1021(8), 440), 49);
        assert_eq!(count(SHORT, 5), 3);
        assert_eq!(count(EIGHT, 5), 1);
        let length = blocks(SHORT, &[0; 440])[220];
        assert_eq!(
            length,
            coding::block(SHORT, &[0x01, 0xB8]).expect("a block")
        );
    }

    #[test]
    fn tags_in_short_towers() {
        assert_eq!(tagged(SHORT, "003005", "00700B", "0045486900"), "BB46FE");
        assert_eq!(tagged(SHORT, "003005", "00700B", "00454869"), "D9937D");
        assert_eq!(tagged(SHORT, "003005", "00700B", "004548"), "350D88");
        assert_eq!(tagged(SHORT, "003005", "00700B", "00454800"), "5D0E48");
        assert_eq!(tagged(SMALL, "00C050", "01C0B0", "0045486900"), "1D4A90");
    }

    #[test]
    fn powers_of_the_key_of_the_worked_sum() {
        let key = value(SHORT, "003005");
        let numbers = |value: Value| value.coefficients();
        assert_eq!(numbers(key * key), [59, 30]);
        assert_eq!(numbers(key * key * key), [477, 385]);
        assert_eq!(numbers(key * key * key * key), [1188, 3540]);
    }

    #[test]
    fn tags_with_eight_coefficients() {
        let key = "000001000000000000000000";
        let zone = "00455A6F6E6520412C206164756C74";
        assert_eq!(
            tagged(EIGHT, key, "001002003004005006007008", zone),
            "209B0A7A85612434E46ED298"
        );
        let zero = "000000000000000000000000";
        assert_eq!(tagged(EIGHT, key, zero, "0005"), "000000080140000000000000");
    }

    #[test]
    fn tags_agree_with_the_steps() {
        let mut random = Random::new(4);
        for field in [SHORT, SMALL, EIGHT, Field::at_1021(8)] {
            for length in 2..=440 {
                let room = field.block_size();
                let key = coding::block(field, &random.bytes(room)).expect("a block");
                let pad = coding::block(field, &random.bytes(room)).expect("a block");
                let body = random.bytes(length);
                let mut sum = field.zero();
                for block in blocks(field, &body) {
                    sum = (sum + block) * key;
                }
                assert_eq!(tag(key, pad, &body), Ok(sum + pad));
            }
        }
    }

    #[test]
    fn bodies_of_wrong_length_have_no_tag() {
        for length in [0, 1, 441] {
            let refused = tag(SHORT.one(), SHORT.zero(), &vec![0; length]);
            assert_eq!(refused, Err(Refusal::WrongLength.into()));
        }
        // Key and pad may be zero.
        assert_eq!(
            tag(SHORT.zero(), SHORT.zero(), &[0xFF; 440]),
            Ok(SHORT.zero())
        );
    }

    #[test]
    fn pads() {
        let pads = hex::bytes("000000 00700B");
        let pad = |number| {
            read_pad(SHORT, &pads, number)
                .map(|pad| pad.coefficients())
                .map_err(|fault| fault.to_string())
        };
        assert_eq!(count_pads(SHORT, &pads), Ok(2));
        assert_eq!(pad(0), Ok(vec![0, 0]));
        assert_eq!(pad(1), Ok(vec![7, 11]));
        assert_eq!(pad(2), refused("refused 8 0 0"));
        assert_eq!(count_pads(SHORT, &pads[..4]), Err(Refusal::BadPads.into()));
        assert_eq!(count_pads(SHORT, &[]), Err(Refusal::BadPads.into()));
        assert_eq!(count_pads(SHORT, &[0; 3 * 1024]), Ok(1024));
        assert_eq!(
            count_pads(SHORT, &[0; 3 * 1025]),
            Err(Refusal::BadPads.into())
        );
    }

    #[test]
    fn tickets() {
        let good = Ok((1, 5, "486900".to_owned()));
        assert_eq!(checked("00000000700B", "0045486900BB46FE"), good);
        assert_eq!(checked("FFD00000700B", "0045486900BB46FE"), good);
        assert_eq!(checked("00000000", "0045BB46"), refused("refused 5 0 0"));
        assert_eq!(
            checked("00000000", "0045486900BB46FE"),
            refused("refused 6 0 0")
        );
        assert_eq!(
            checked("00700B", "0045486900BB46FE"),
            refused("refused 8 0 0")
        );
        assert_eq!(
            checked("000000FFD00B", "0045486900FFDFFE"),
            refused("refused 1 2 0")
        );
        assert_eq!(
            checked("00000000700B", "0045486900FFDFFE"),
            refused("refused 1 3 0")
        );
        assert_eq!(
            checked("00000000700B", "0045486900BB46FF"),
            refused("refused 11 0 0")
        );
        assert_eq!(
            checked("00000000700B", "00454869BB46FE"),
            refused("refused 11 0 0")
        );
    }

    #[test]
    fn lengths_of_tickets() {
        let long = |length: usize| checked("000000", &"00".repeat(length));
        assert_eq!(long(0), refused("refused 5 0 0"));
        assert_eq!(long(4), refused("refused 5 0 0"));
        assert_eq!(long(5), refused("refused 11 0 0"));
        assert_eq!(long(443), refused("refused 11 0 0"));
        assert_eq!(long(444), refused("refused 5 0 0"));
    }
}
