//! The program for a whole shift: a key, pads and a tape go in, lines of text come out.

use crate::fault::{Fault, Refusal};
use crate::field::{Field, Form};
use crate::tag::NUMBERS;
use crate::tape::{self, Record};
use crate::validator::Validator;

/// The form that the program works over.
pub const FORM: Form = Form::Polynomial4093;
/// The shortest input: a key and a count of pads.
pub const SHORTEST: usize = 14;
/// The longest input.
pub const LONGEST: usize = 49152;

/// All lines that the program prints for an input.
pub fn shift(input: &[u8]) -> String {
    let mut lines = match opened(input) {
        Ok(opened) => opened.lines(),
        Err(fault) => vec![format!("0 {fault}")],
    };
    lines.push(format!("end {}", lines.len()));
    lines.iter().map(|line| format!("{line}\n")).collect()
}

/// An input in which nothing before the tape is wrong.
struct Opened<'input> {
    validator: Validator,
    pads: &'input [u8],
    tape: &'input [u8],
}

fn opened(input: &[u8]) -> Result<Opened<'_>, Fault> {
    let field: Field = FORM.field();
    if !(SHORTEST..=LONGEST).contains(&input.len()) {
        return Err(Refusal::WrongSize.into());
    }
    let (key, rest) = input.split_at(field.encoded_size());
    let (count, rest) = rest.split_at(2);
    let count = 256 * usize::from(count[0]) + usize::from(count[1]);
    if count == 0 || count > NUMBERS {
        return Err(Refusal::BadPads.into());
    }
    let (pads, tape) = rest
        .split_at_checked(count * field.encoded_size())
        .ok_or(Fault::from(Refusal::BadPads))?;
    Ok(Opened {
        validator: Validator::new(field, key)?,
        pads,
        tape,
    })
}

impl Opened<'_> {
    /// The lines of all records.
    fn lines(mut self) -> Vec<String> {
        tape::records(self.tape)
            .zip(1..)
            .map(|(record, number)| {
                let answer = record.and_then(|record| match record {
                    Record::Check(ticket) => {
                        let route = self.validator.check(ticket, self.pads)?;
                        Ok(format!("pass {route}"))
                    }
                    Record::Cancel(number) => {
                        self.validator.cancel(number)?;
                        Ok("cancelled".to_owned())
                    }
                    Record::Report(route) => {
                        let rides = self.validator.report(route)?;
                        Ok(format!("rides {rides}"))
                    }
                });
                match answer {
                    Ok(answer) => format!("{number} {answer}"),
                    Err(fault) => format!("{number} {fault}"),
                }
            })
            .collect()
    }
}

#[cfg(test)]
mod tests {
    use super::*;
    use crate::hex;

    const KEY: &str = "000001000000000000000000";
    const ZERO: &str = "000000000000000000000000";
    const TICKET: &str = "0005000000080140000000000000";

    fn printed(parts: &[&str]) -> Vec<String> {
        let text = shift(&hex::bytes(&parts.concat()));
        assert!(text.ends_with('\n'));
        text.lines().map(str::to_owned).collect()
    }

    #[test]
    fn worked_example() {
        assert_eq!(
            printed(&[
                KEY, "0001", ZERO, "400E", TICKET, "400E", TICKET, "8000", "C005"
            ]),
            [
                "1 pass 5",
                "2 refused 10 0 0",
                "3 refused 10 0 0",
                "4 rides 1",
                "end 4"
            ]
        );
    }

    #[test]
    fn an_empty_tape() {
        assert_eq!(printed(&[KEY, "0001", ZERO]), ["end 0"]);
    }

    #[test]
    fn faults_before_the_tape() {
        let bad_key = "000FFD000000000000000000";
        assert_eq!(printed(&[]), ["0 refused 3 0 0", "end 1"]);
        assert_eq!(printed(&[KEY, "00"]), ["0 refused 3 0 0", "end 1"]);
        assert_eq!(printed(&[KEY, "0001"]), ["0 refused 6 0 0", "end 1"]);
        assert_eq!(printed(&[ZERO, "0000", ZERO]), ["0 refused 6 0 0", "end 1"]);
        let pads = ZERO.repeat(1025);
        assert_eq!(printed(&[KEY, "0401", &pads]), ["0 refused 6 0 0", "end 1"]);
        assert_eq!(printed(&[KEY, "0400", &pads[24..]]), ["end 0"]);
        assert_eq!(
            printed(&[KEY, "0400", &pads[26..]]),
            ["0 refused 6 0 0", "end 1"]
        );
        assert_eq!(
            printed(&[bad_key, "0001", ZERO]),
            ["0 refused 1 1 1", "end 1"]
        );
        assert_eq!(
            printed(&[bad_key, "0002", ZERO]),
            ["0 refused 6 0 0", "end 1"]
        );
        assert_eq!(
            printed(&[ZERO, "0001", ZERO, "8000"]),
            ["0 refused 7 1 0", "end 1"]
        );
    }

    #[test]
    fn the_longest_input() {
        let reports = "C000".repeat((LONGEST - 26) / 2);
        let lines = printed(&[KEY, "0001", ZERO, &reports]);
        assert_eq!(lines.len(), 24_564);
        assert_eq!(lines[24_562], "24563 rides 0");
        assert_eq!(lines[24_563], "end 24563");
        assert_eq!(
            printed(&[KEY, "0001", ZERO, &reports, "40"]),
            ["0 refused 3 0 0", "end 1"]
        );
    }

    #[test]
    fn faults_of_the_tape_end_the_reading() {
        assert_eq!(
            printed(&[KEY, "0001", ZERO, "8000", "400E", TICKET, "0000", "C005"]),
            [
                "1 cancelled",
                "2 refused 9 0 0",
                "3 refused 16 4 18",
                "end 3"
            ]
        );
        assert_eq!(
            printed(&[KEY, "0001", ZERO, "C005", "400E", "0005"]),
            ["1 rides 0", "2 refused 15 4 2", "end 2"]
        );
        assert_eq!(
            printed(&[KEY, "0001", ZERO, "C0"]),
            ["1 refused 15 4 0", "end 1"]
        );
    }

    #[test]
    fn refused_checks_do_not_end_the_reading() {
        let bad_pad = "FFD000000000000000000000";
        let other = "0045000000080140000000000000";
        assert_eq!(
            printed(&[
                KEY,
                "0002",
                ZERO,
                bad_pad,
                "4000",
                "400E",
                other,
                "400D",
                &TICKET[2..],
                "400E",
                TICKET,
                "C005"
            ]),
            [
                "1 refused 5 0 0",
                "2 refused 1 2 0",
                "3 refused 5 0 0",
                "4 pass 5",
                "5 rides 1",
                "end 5"
            ]
        );
        let third = "0085000000080140000000000000";
        assert_eq!(
            printed(&[KEY, "0002", ZERO, ZERO, "400E", third]),
            ["1 refused 8 0 0", "end 1"]
        );
    }
}
