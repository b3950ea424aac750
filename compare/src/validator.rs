//! The validator: it checks tickets, cancels numbers and reports rides.
//!
//! It keeps no marks and no counts, only the history of right checks and of cancels. A number is
//! ridden if a right check of it came before any cancel, and cancelled if a cancel came first. A
//! report counts the numbers whose first right check was for the route, with no cancel before it.

use crate::fault::{Fault, Refusal};
use crate::field::{Field, Value};
use crate::issuer::read_key;
use crate::tag::{self, Body, NUMBERS, ROUTES};

/// Something that happened to a number, whether or not the call was refused.
#[derive(Clone, Copy, Debug, PartialEq, Eq)]
enum Event {
    /// A check that was right, for this route.
    RightCheck(usize),
    /// A cancel.
    Cancel,
}

/// A validator with its key and its history.
#[derive(Clone, Debug)]
pub struct Validator {
    key: Value,
    history: Vec<(usize, Event)>,
}

impl Validator {
    /// A validator to which nothing has happened.
    ///
    /// # Errors
    ///
    /// Those of reading the key.
    pub fn new(field: Field, key: &[u8]) -> Result<Self, Fault> {
        Ok(Self {
            key: read_key(field, key)?,
            history: vec![],
        })
    }

    /// Judges a ticket; answers its route if it passes.
    ///
    /// # Errors
    ///
    /// `WrongLength`, `BadPads`, `NumberOutOfRange`, `TicketCancelled`, `TicketRidden`, then those
    /// of decoding the pad and the tag, and `FalseTag`.
    pub fn check(&mut self, ticket: &[u8], pads: &[u8]) -> Result<usize, Fault> {
        let judged = tag::check_ticket(self.key, pads, ticket);
        // These three come before the number is looked up.
        let early = [
            Refusal::WrongLength,
            Refusal::BadPads,
            Refusal::NumberOutOfRange,
        ];
        if let Err(fault) = judged
            && early.into_iter().any(|refusal| fault.is(refusal))
        {
            return Err(fault);
        }
        let number = Body::open(&ticket[..2])?.number;
        let spent = self.must_be_blank(number);
        if let Ok(body) = judged {
            self.history.push((number, Event::RightCheck(body.route)));
        }
        spent?;
        judged.map(|body| body.route)
    }

    /// Bars a number.
    ///
    /// # Errors
    ///
    /// `NumberOutOfRange` from 1024 on, `TicketCancelled`, `TicketRidden`.
    pub fn cancel(&mut self, number: usize) -> Result<(), Fault> {
        if number >= NUMBERS {
            return Err(Refusal::NumberOutOfRange.into());
        }
        let spent = self.must_be_blank(number);
        self.history.push((number, Event::Cancel));
        spent
    }

    /// How many rides a route had.
    ///
    /// # Errors
    ///
    /// `RouteOutOfRange` above 63.
    pub fn report(&self, route: usize) -> Result<usize, Fault> {
        if route >= ROUTES {
            return Err(Refusal::RouteOutOfRange.into());
        }
        let mut met = [false; NUMBERS];
        let mut rides = 0;
        for (number, event) in &self.history {
            let first = !std::mem::replace(&mut met[*number], true);
            if first && *event == Event::RightCheck(route) {
                rides += 1;
            }
        }
        Ok(rides)
    }

    /// Nothing has happened to the number yet; else what came first decides.
    fn must_be_blank(&self, number: usize) -> Result<(), Fault> {
        let first = self.history.iter().find(|(met, _)| *met == number);
        match first {
            None => Ok(()),
            Some((_, Event::Cancel)) => Err(Refusal::TicketCancelled.into()),
            Some((_, Event::RightCheck(_))) => Err(Refusal::TicketRidden.into()),
        }
    }
}

#[cfg(test)]
mod tests {
    use super::*;
    use crate::coding;
    use crate::fault::Part;
    use crate::hex;
    use crate::random::Random;

    const SHORT: Field = Field::at_4093(2);
    const KEY: [u8; 3] = [0x00, 0x30, 0x05];
    const PADS: [u8; 6] = [0x00, 0x00, 0x00, 0x00, 0x70, 0x0B];

    fn validator() -> Validator {
        Validator::new(SHORT, &KEY).expect("a key")
    }

    fn told<T>(answer: Result<T, Fault>) -> Result<T, String> {
        answer.map_err(|fault| fault.to_string())
    }

    fn refused<T>(fault: &str) -> Result<T, String> {
        Err(fault.to_owned())
    }

    /// A right ticket.
    fn ticket(number: usize, route: usize, text: &[u8]) -> Vec<u8> {
        let key = coding::decode(SHORT, Part::Key, &KEY).expect("a key");
        let pad = tag::read_pad(SHORT, &PADS, number).expect("a pad");
        let bytes = Body {
            number,
            route,
            text,
        }
        .bytes()
        .expect("a body");
        let tag = tag::tag(key, pad, &bytes).expect("a tag");
        [bytes, coding::encode(&tag)].concat()
    }

    #[test]
    fn the_ticket_of_the_worked_example() {
        assert_eq!(hex::of_bytes(&ticket(1, 5, b"Hi\0")), "0045486900BB46FE");
    }

    #[test]
    fn keys() {
        let fault = |key: &[u8]| told(Validator::new(SHORT, key).map(|_| ()));
        assert_eq!(fault(&[0; 4]), refused("refused 3 1 0"));
        assert_eq!(fault(&[0xFF; 3]), refused("refused 1 1 0"));
        assert_eq!(fault(&[0; 3]), refused("refused 7 1 0"));
    }

    #[test]
    fn a_ticket_rides_once() {
        let mut validator = validator();
        let ticket = ticket(1, 5, b"Hi\0");
        assert_eq!(told(validator.report(5)), Ok(0));
        assert_eq!(told(validator.check(&ticket, &PADS)), Ok(5));
        assert_eq!(
            told(validator.check(&ticket, &PADS)),
            refused("refused 10 0 0")
        );
        assert_eq!(told(validator.cancel(1)), refused("refused 10 0 0"));
        assert_eq!(
            told(validator.check(&ticket, &PADS)),
            refused("refused 10 0 0")
        );
        assert_eq!(told(validator.report(5)), Ok(1));
        assert_eq!(told(validator.report(6)), Ok(0));
    }

    #[test]
    fn a_cancelled_number_does_not_ride() {
        let mut validator = validator();
        assert_eq!(told(validator.cancel(1)), Ok(()));
        assert_eq!(told(validator.cancel(1)), refused("refused 9 0 0"));
        assert_eq!(
            told(validator.check(&ticket(1, 5, &[]), &PADS)),
            refused("refused 9 0 0")
        );
        assert_eq!(told(validator.cancel(1)), refused("refused 9 0 0"));
        assert_eq!(told(validator.check(&ticket(0, 5, &[]), &PADS)), Ok(5));
        assert_eq!(told(validator.report(5)), Ok(1));
    }

    #[test]
    fn a_second_right_ticket_of_a_number_does_not_count() {
        let mut validator = validator();
        assert_eq!(told(validator.check(&ticket(0, 3, &[]), &PADS)), Ok(3));
        assert_eq!(
            told(validator.check(&ticket(0, 4, &[]), &PADS)),
            refused("refused 10 0 0")
        );
        assert_eq!(told(validator.report(3)), Ok(1));
        assert_eq!(told(validator.report(4)), Ok(0));
    }

    #[test]
    fn ends_of_the_ranges() {
        let mut validator = validator();
        assert_eq!(told(validator.cancel(1023)), Ok(()));
        assert_eq!(told(validator.cancel(1024)), refused("refused 8 0 0"));
        assert_eq!(told(validator.report(63)), Ok(0));
        assert_eq!(told(validator.report(64)), refused("refused 17 0 0"));
    }

    #[test]
    fn faults_of_checking_in_order() {
        let good = ticket(1, 5, b"Hi\0");
        let mut bad_tag = good.clone();
        bad_tag[5] = 0xFF;
        bad_tag[6] = 0xDF;
        let mut false_tag = good.clone();
        false_tag[7] ^= 1;
        let bad_pad = hex::bytes("000000 FFD00B");

        let mut validator = validator();
        let mut check = |ticket: &[u8], pads: &[u8]| told(validator.check(ticket, pads));
        assert_eq!(
            check(&bad_tag[..4], &bad_pad[..4]),
            refused("refused 5 0 0")
        );
        assert_eq!(check(&[0; 444], &bad_pad[..4]), refused("refused 5 0 0"));
        assert_eq!(check(&bad_tag, &bad_pad[..4]), refused("refused 6 0 0"));
        assert_eq!(check(&bad_tag, &bad_pad[..3]), refused("refused 8 0 0"));
        assert_eq!(check(&bad_tag, &bad_pad), refused("refused 1 2 0"));
        assert_eq!(check(&bad_tag, &PADS), refused("refused 1 3 0"));
        assert_eq!(check(&false_tag, &PADS), refused("refused 11 0 0"));
        assert_eq!(check(&good, &PADS), Ok(5));
        // Once it has ridden, that comes before pad and tag, but not before the first three.
        assert_eq!(check(&bad_tag, &bad_pad), refused("refused 10 0 0"));
        assert_eq!(check(&false_tag, &PADS), refused("refused 10 0 0"));
        assert_eq!(check(&bad_tag, &bad_pad[..3]), refused("refused 8 0 0"));
        assert_eq!(check(&bad_tag, &bad_pad[..4]), refused("refused 6 0 0"));
    }

    #[test]
    fn a_refused_check_leaves_the_number_blank() {
        let mut validator = validator();
        let mut forged = ticket(1, 5, &[]);
        forged[1] ^= 1;
        assert_eq!(
            told(validator.check(&forged, &PADS)),
            refused("refused 11 0 0")
        );
        assert_eq!(told(validator.report(4)), Ok(0));
        assert_eq!(told(validator.cancel(1)), Ok(()));
    }

    /// The other way to keep a validator: a mark for each number and a count for each route.
    struct Marks {
        of: [Option<Refusal>; NUMBERS],
        rides: [usize; ROUTES],
    }

    impl Marks {
        fn check(&mut self, ticket: &[u8], pads: &[u8]) -> Result<usize, Fault> {
            let length = ticket.len().saturating_sub(SHORT.encoded_size());
            let Body { number, route, .. } = Body::open(&ticket[..length])?;
            if number >= tag::count_pads(SHORT, pads)? {
                return Err(Refusal::NumberOutOfRange.into());
            }
            if let Some(refusal) = self.of[number] {
                return Err(refusal.into());
            }
            let key = read_key(SHORT, &KEY).expect("a key");
            tag::check_ticket(key, pads, ticket)?;
            self.of[number] = Some(Refusal::TicketRidden);
            self.rides[route] += 1;
            Ok(route)
        }

        fn cancel(&mut self, number: usize) -> Result<(), Fault> {
            if let Some(refusal) = self.of[number] {
                return Err(refusal.into());
            }
            self.of[number] = Some(Refusal::TicketCancelled);
            Ok(())
        }
    }

    #[test]
    fn history_and_marks_agree() {
        let mut random = Random::new(5);
        let bad_pad = hex::bytes("000000 FFD00B");
        for _ in 0..300 {
            let mut validator = validator();
            let mut marks = Marks {
                of: [None; NUMBERS],
                rides: [0; ROUTES],
            };
            for _ in 0..12 {
                let number = random.below(2);
                if random.once_in(6) {
                    assert_eq!(validator.cancel(number), marks.cancel(number));
                } else {
                    let mut ticket = ticket(number, random.below(3), &[]);
                    match random.below(6) {
                        0 => ticket[4] ^= 1,
                        1 => ticket[2..4].fill(0xFF),
                        2 => ticket.truncate(random.below(6)),
                        _ => {}
                    }
                    let pads =
                        *random.choice(&[&PADS[..], &PADS, &PADS[..3], &PADS[..4], &bad_pad]);
                    assert_eq!(validator.check(&ticket, pads), marks.check(&ticket, pads));
                }
                for route in 0..3 {
                    assert_eq!(validator.report(route), Ok(marks.rides[route]));
                }
            }
        }
    }
}
