//! The tape: records of checks, cancels and reports in a row.

use crate::fault::{Fault, Part, Refusal};

/// A record of a tape.
#[derive(Clone, Copy, Debug, PartialEq, Eq)]
pub enum Record<'tape> {
    /// A check of this ticket.
    Check(&'tape [u8]),
    /// A cancel of this number.
    Cancel(usize),
    /// A report of this route.
    Report(usize),
}

impl Record<'_> {
    /// The bytes of the record.
    pub fn bytes(&self) -> Vec<u8> {
        let head = |kind: u16, number: usize| {
            let number = u16::try_from(number).expect("a number fits its record");
            (kind + number).to_be_bytes().to_vec()
        };
        match self {
            Self::Check(ticket) => [&head(0x4000, ticket.len()), *ticket].concat(),
            Self::Cancel(number) => head(0x8000, *number),
            Self::Report(route) => head(0xC000, *route),
        }
    }
}

/// All records up to the end, or up to a fault, which is then the last item.
pub fn records(tape: &[u8]) -> impl Iterator<Item = Result<Record<'_>, Fault>> {
    let mut rest = Some(tape);
    std::iter::from_fn(move || {
        let here = rest.take()?;
        if here.is_empty() {
            return None;
        }
        match first(here) {
            Ok((record, behind)) => {
                rest = Some(behind);
                Some(Ok(record))
            }
            Err(refusal) => {
                let place = tape.len() - here.len();
                Some(Err(Fault::new(refusal, Part::Tape, place)))
            }
        }
    })
}

/// The first record of a tape that is not empty, and the tape behind it.
fn first(tape: &[u8]) -> Result<(Record<'_>, &[u8]), Refusal> {
    let (head, behind) = tape.split_first_chunk().ok_or(Refusal::TornTape)?;
    let head = u16::from_be_bytes(*head);
    // Each kind of record has a range of heads; no other head is one.
    match head {
        0x4000..=0x7FFF => {
            let length = usize::from(head - 0x4000);
            let (ticket, behind) = behind.split_at_checked(length).ok_or(Refusal::TornTape)?;
            Ok((Record::Check(ticket), behind))
        }
        0x8000..=0x83FF => Ok((Record::Cancel(usize::from(head - 0x8000)), behind)),
        0xC000..=0xC03F => Ok((Record::Report(usize::from(head - 0xC000)), behind)),
        _ => Err(Refusal::BadRecord),
    }
}

#[cfg(test)]
mod tests {
    use super::*;
    use crate::hex;

    /// What a reader says of a tape, in words.
    fn read(tape: &str) -> Vec<String> {
        records(&hex::bytes(tape))
            .map(|record| match record {
                Ok(Record::Check(ticket)) => format!("check {}", hex::of_bytes(ticket)),
                Ok(Record::Cancel(number)) => format!("cancel {number}"),
                Ok(Record::Report(route)) => format!("report {route}"),
                Err(fault) => fault.to_string(),
            })
            .collect()
    }

    #[test]
    fn worked_examples() {
        assert_eq!(
            read("40 08 00 45 48 69 00 BB 46 FE 80 01 C0 05"),
            ["check 0045486900BB46FE", "cancel 1", "report 5"]
        );
        assert_eq!(read("40 00"), ["check -"]);
        assert_eq!(read("C0 05 40"), ["report 5", "refused 15 4 2"]);
        assert_eq!(read("83 FF 84 00"), ["cancel 1023", "refused 16 4 2"]);
        assert_eq!(read("C0 3F C0 40"), ["report 63", "refused 16 4 2"]);
        assert_eq!(read("00 05"), ["refused 16 4 0"]);
        assert_eq!(read("40 03 AA BB"), ["refused 15 4 0"]);
        assert!(read("").is_empty());
    }

    #[test]
    fn a_fault_ends_the_reading() {
        assert_eq!(read("00 05 C0 05"), ["refused 16 4 0"]);
        assert_eq!(read("7F FF C0 05"), ["refused 15 4 0"]);
        assert_eq!(read("00"), ["refused 15 4 0"]);
        assert_eq!(read("C0"), ["refused 15 4 0"]);
    }

    /// Whether a head has no unused bit set, told bit by bit.
    fn usable(head: usize) -> bool {
        match head >> 14 {
            1 => true,
            2 => head & 0b0011_1100_0000_0000 == 0,
            3 => head & 0b0011_1111_1100_0000 == 0,
            _ => false,
        }
    }

    #[test]
    fn every_head() {
        let mut tape = vec![0; 2 + 0x3FFF];
        for head in 0..=0xFFFF {
            tape[0] = u8::try_from(head >> 8).expect("a byte");
            tape[1] = u8::try_from(head & 0xFF).expect("a byte");
            let record = records(&tape).next().expect("not empty");
            if usable(head) {
                let record = record.expect("a record");
                let bytes = record.bytes();
                assert_eq!(bytes, tape[..bytes.len()]);
            } else {
                let fault = Fault::new(Refusal::BadRecord, Part::Tape, 0);
                assert_eq!(record, Err(fault));
            }
        }
    }
}
