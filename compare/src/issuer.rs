//! The issuer: it draws numbers, seals tickets and voids numbers.
//!
//! It keeps nothing but a log of what was done; every answer is read off the log.

use crate::coding;
use crate::fault::{Fault, Part, Refusal};
use crate::field::{Field, Value};
use crate::tag::{self, Body};

/// What was done with a number.
#[derive(Clone, Copy, Debug, PartialEq, Eq)]
enum Act {
    Drawn,
    Sealed,
    Voided,
}

/// The counts of numbers drawn, sealed and voided.
#[derive(Clone, Copy, Debug, PartialEq, Eq)]
pub struct Tally {
    /// Every stub given.
    pub drawn: usize,
    /// Tickets made.
    pub sealed: usize,
    /// Numbers given up.
    pub voided: usize,
}

/// An issuer with its key and its log.
#[derive(Clone, Debug)]
pub struct Issuer {
    key: Value,
    log: Vec<(usize, Act)>,
}

/// Reads the key of an issuer or a validator.
///
/// # Errors
///
/// Those of decoding, then `ZeroKey`, all of the part key.
pub fn read_key(field: Field, bytes: &[u8]) -> Result<Value, Fault> {
    let key = coding::decode(field, Part::Key, bytes)?;
    if key.is_zero() {
        return Err(Fault::new(Refusal::ZeroKey, Part::Key, 0));
    }
    Ok(key)
}

impl Issuer {
    /// An issuer that has drawn nothing.
    ///
    /// # Errors
    ///
    /// Those of reading the key.
    pub fn new(field: Field, key: &[u8]) -> Result<Self, Fault> {
        Ok(Self {
            key: read_key(field, key)?,
            log: vec![],
        })
    }

    /// Draws the lowest number that was not drawn before.
    ///
    /// # Errors
    ///
    /// `BadPads`, then `AllDrawn`.
    pub fn draw(&mut self, pads: &[u8]) -> Result<usize, Fault> {
        let count = tag::count_pads(self.key.field(), pads)?;
        let number = (0..count)
            .find(|number| self.last_act(*number).is_none())
            .ok_or(Fault::from(Refusal::AllDrawn))?;
        self.log.push((number, Act::Drawn));
        Ok(number)
    }

    /// Makes the ticket of a drawn number, writes it at the front of a paper and answers its length.
    /// A refusal writes nothing; each but `UnknownStub` makes the number void.
    ///
    /// # Errors
    ///
    /// `UnknownStub`, `BadPads`, `NumberOutOfRange`, `RouteOutOfRange`, `WrongLength` for the
    /// text, `PaperTooShort`, then those of decoding the pad.
    pub fn seal(
        &mut self,
        number: usize,
        route: usize,
        text: &[u8],
        pads: &[u8],
        paper: &mut [u8],
    ) -> Result<usize, Fault> {
        self.must_be_open(number)?;
        let ticket = self.ticket(
            Body {
                number,
                route,
                text,
            },
            pads,
            paper.len(),
        );
        let act = if ticket.is_ok() {
            Act::Sealed
        } else {
            Act::Voided
        };
        self.log.push((number, act));
        let ticket = ticket?;
        paper[..ticket.len()].copy_from_slice(&ticket);
        Ok(ticket.len())
    }

    /// Gives a drawn number up.
    ///
    /// # Errors
    ///
    /// `UnknownStub`.
    pub fn void(&mut self, number: usize) -> Result<(), Fault> {
        self.must_be_open(number)?;
        self.log.push((number, Act::Voided));
        Ok(())
    }

    /// The three counts so far.
    pub fn tally(&self) -> Tally {
        let count = |act| self.log.iter().filter(|(_, done)| *done == act).count();
        Tally {
            drawn: count(Act::Drawn),
            sealed: count(Act::Sealed),
            voided: count(Act::Voided),
        }
    }

    /// The ticket, unless something but the stub is wrong.
    fn ticket(&self, body: Body<'_>, pads: &[u8], room: usize) -> Result<Vec<u8>, Fault> {
        let field = self.key.field();
        if tag::count_pads(field, pads)? <= body.number {
            return Err(Refusal::NumberOutOfRange.into());
        }
        let bytes = body.bytes()?;
        if bytes.len() + field.encoded_size() > room {
            return Err(Refusal::PaperTooShort.into());
        }
        let pad = tag::read_pad(field, pads, body.number)?;
        let tag = tag::tag(self.key, pad, &bytes)?;
        Ok([bytes, coding::encode(&tag)].concat())
    }

    fn must_be_open(&self, number: usize) -> Result<(), Fault> {
        match self.last_act(number) {
            Some(Act::Drawn) => Ok(()),
            _ => Err(Refusal::UnknownStub.into()),
        }
    }

    /// What was last done with a number.
    fn last_act(&self, number: usize) -> Option<Act> {
        self.log
            .iter()
            .rev()
            .find(|(done, _)| *done == number)
            .map(|(_, act)| *act)
    }
}

#[cfg(test)]
mod tests {
    use super::*;
    use crate::hex;

    const SHORT: Field = Field::at_4093(2);
    const PADS: [u8; 6] = [0x00, 0x00, 0x00, 0x00, 0x70, 0x0B];

    fn issuer() -> Issuer {
        Issuer::new(SHORT, &hex::bytes("003005")).expect("a key")
    }

    fn tally(issuer: &Issuer) -> (usize, usize, usize) {
        let Tally {
            drawn,
            sealed,
            voided,
        } = issuer.tally();
        (drawn, sealed, voided)
    }

    fn refused<T>(fault: &str) -> Result<T, String> {
        Err(fault.to_owned())
    }

    fn told<T>(answer: Result<T, Fault>) -> Result<T, String> {
        answer.map_err(|fault| fault.to_string())
    }

    #[test]
    fn keys() {
        let fault = |field, key: &str| told(Issuer::new(field, &hex::bytes(key)).map(|_| ()));
        assert_eq!(fault(SHORT, "003005"), Ok(()));
        assert_eq!(fault(SHORT, "0030"), refused("refused 3 1 0"));
        assert_eq!(fault(SHORT, "000FFD"), refused("refused 1 1 1"));
        assert_eq!(fault(Field::at_1021(2), "000001"), refused("refused 4 1 0"));
        assert_eq!(fault(SHORT, "000000"), refused("refused 7 1 0"));
    }

    #[test]
    fn drawing_goes_up_from_0() {
        let mut issuer = issuer();
        assert_eq!(told(issuer.draw(&PADS[..4])), refused("refused 6 0 0"));
        assert_eq!(told(issuer.draw(&PADS)), Ok(0));
        assert_eq!(told(issuer.draw(&PADS[..3])), refused("refused 13 0 0"));
        assert_eq!(told(issuer.draw(&PADS)), Ok(1));
        assert_eq!(told(issuer.draw(&PADS)), refused("refused 13 0 0"));
        assert_eq!(told(issuer.draw(&[0; 9])), Ok(2));
        assert_eq!(tally(&issuer), (3, 0, 0));
    }

    #[test]
    fn a_given_up_number_is_not_drawn_again() {
        let mut issuer = issuer();
        assert_eq!(told(issuer.draw(&PADS)), Ok(0));
        assert_eq!(told(issuer.void(0)), Ok(()));
        assert_eq!(told(issuer.draw(&PADS)), Ok(1));
        assert_eq!(told(issuer.void(0)), refused("refused 14 0 0"));
        assert_eq!(told(issuer.void(2)), refused("refused 14 0 0"));
        assert_eq!(tally(&issuer), (2, 0, 1));
    }

    #[test]
    fn a_sealed_ticket_stands_first_in_its_paper() {
        let mut issuer = issuer();
        for number in 0..2 {
            assert_eq!(told(issuer.draw(&PADS)), Ok(number));
        }
        let mut paper = [0xAA; 10];
        let text = hex::bytes("486900");
        assert_eq!(told(issuer.seal(1, 5, &text, &PADS, &mut paper)), Ok(8));
        assert_eq!(hex::of_bytes(&paper), "0045486900BB46FEAAAA");
        assert_eq!(tally(&issuer), (2, 1, 0));
        assert_eq!(
            told(issuer.seal(1, 5, &text, &PADS, &mut paper)),
            refused("refused 14 0 0")
        );
        assert_eq!(told(issuer.void(1)), refused("refused 14 0 0"));
        assert_eq!(tally(&issuer), (2, 1, 0));
    }

    #[test]
    fn a_paper_may_be_exactly_as_long_as_the_ticket() {
        for (room, answer) in [(8, Ok(8)), (7, refused("refused 12 0 0"))] {
            let mut issuer = issuer();
            assert_eq!(told(issuer.draw(&PADS)), Ok(0));
            assert_eq!(told(issuer.draw(&PADS)), Ok(1));
            let mut paper = vec![0xAA; room];
            assert_eq!(told(issuer.seal(1, 5, b"Hi\0", &PADS, &mut paper)), answer);
        }
    }

    #[test]
    fn faults_of_sealing_in_order_and_the_number_is_void() {
        let bad_pads = hex::bytes("FFD000 FFD000");
        let long = [0; 439];
        // Pads, route, text, room and answer. Each row mends one thing more than the row before.
        type Row<'row> = (&'row [u8], usize, &'row [u8], usize, &'row str);
        let rows: [Row; 7] = [
            (&bad_pads[..4], 64, &long, 2, "refused 6 0 0"),
            (&bad_pads[..3], 64, &long, 2, "refused 8 0 0"),
            (&bad_pads, 64, &long, 2, "refused 17 0 0"),
            (&bad_pads, 63, &long, 2, "refused 5 0 0"),
            (&bad_pads, 63, &long[..438], 442, "refused 12 0 0"),
            (&bad_pads, 63, &long[..438], 443, "refused 1 2 0"),
            (&PADS, 63, &long[..438], 443, "sealed"),
        ];
        for (pads, route, text, room, answer) in rows {
            let mut issuer = issuer();
            assert_eq!(told(issuer.draw(&PADS)), Ok(0));
            assert_eq!(told(issuer.draw(&PADS)), Ok(1));
            let mut paper = vec![0xAA; room];
            assert_eq!(
                told(issuer.seal(2, route, text, pads, &mut paper)),
                refused("refused 14 0 0")
            );
            assert_eq!(tally(&issuer), (2, 0, 0));
            let sealed = told(issuer.seal(1, route, text, pads, &mut paper));
            if answer == "sealed" {
                assert_eq!(sealed, Ok(443));
                assert_eq!(tally(&issuer), (2, 1, 0));
            } else {
                assert_eq!(sealed, refused(answer));
                assert_eq!(paper, vec![0xAA; room]);
                assert_eq!(tally(&issuer), (2, 0, 1));
            }
            let again = told(issuer.seal(1, 0, &[], &PADS, &mut paper));
            assert_eq!(again, refused("refused 14 0 0"));
        }
    }

    #[test]
    fn what_is_sealed_is_checked() {
        let key = hex::bytes("00C050");
        let field = Field::at_1021(2);
        let mut issuer = Issuer::new(field, &key).expect("a key");
        let pads = [0x01, 0xC0, 0xB0];
        assert_eq!(told(issuer.draw(&pads)), Ok(0));
        let mut paper = [0; 20];
        let length = issuer
            .seal(0, 9, b"adult", &pads, &mut paper)
            .expect("sealed");
        let key = read_key(field, &key).expect("a key");
        let body = tag::check_ticket(key, &pads, &paper[..length]).expect("a right ticket");
        assert_eq!((body.number, body.route, body.text), (0, 9, &b"adult"[..]));
    }
}
