//! Faults: a refusal, the part of the input where it was found, and a place in that part.

use std::fmt;

/// Why a call cannot be done.
#[derive(Clone, Copy, Debug, PartialEq, Eq)]
#[repr(u8)]
pub enum Refusal {
    /// A number given for a coefficient is not below the modulus.
    CoefficientOutOfRange = 1,
    /// The inverse of zero is asked for.
    ZeroHasNoInverse = 2,
    /// An encoding, a list of coefficients, a block or a whole input has the wrong size.
    WrongSize = 3,
    /// A padding bit is 1.
    PaddingNotZero = 4,
    /// A ticket, a body or a text has the wrong length.
    WrongLength = 5,
    /// The pads are not a whole number of encodings from 1 to 1024.
    BadPads = 6,
    /// The key is zero.
    ZeroKey = 7,
    /// A ticket number is not below its limit.
    NumberOutOfRange = 8,
    /// The ticket's number is cancelled.
    TicketCancelled = 9,
    /// The ticket's number was ridden.
    TicketRidden = 10,
    /// The tag is not that of the body.
    FalseTag = 11,
    /// A paper is shorter than what is to be written.
    PaperTooShort = 12,
    /// No number is left to draw.
    AllDrawn = 13,
    /// The stub's number is not drawn, or already sealed, or void.
    UnknownStub = 14,
    /// The tape ends inside a record.
    TornTape = 15,
    /// A record has no kind or uses a bit that has no use.
    BadRecord = 16,
    /// A route is above 63.
    RouteOutOfRange = 17,
}

/// The part of the input in which a fault was found.
#[derive(Clone, Copy, Debug, PartialEq, Eq)]
#[repr(u8)]
pub enum Part {
    /// The call itself.
    Call = 0,
    /// The key.
    Key = 1,
    /// A pad.
    Pad = 2,
    /// A ticket's tag.
    Tag = 3,
    /// The tape.
    Tape = 4,
}

/// A fault in plain numbers, so that one that this opinion does not know can be told as well.
#[derive(Clone, Copy, Debug, PartialEq, Eq)]
pub struct Fault {
    /// The refusal's number.
    pub refusal: u8,
    /// The part's number.
    pub part: u8,
    /// The place in the part.
    pub place: u64,
}

impl Fault {
    /// A fault of a part, at a place in it.
    pub fn new(refusal: Refusal, part: Part, place: usize) -> Self {
        Self {
            refusal: refusal as u8,
            part: part as u8,
            place: place as u64,
        }
    }

    /// Whether the fault is this refusal, in whatever part and place.
    pub fn is(&self, refusal: Refusal) -> bool {
        self.refusal == refusal as u8
    }

    /// The fault as one number: the refusal in the lowest byte, the part in the next, the place above.
    pub fn packed(&self) -> u64 {
        u64::from(self.refusal) + 0x100 * u64::from(self.part) + 0x1_0000 * self.place
    }

    /// Reads a packed fault; 0 stands for none.
    pub fn from_packed(packed: u64) -> Result<(), Self> {
        let [refusal, part, ..] = packed.to_le_bytes();
        match packed {
            0 => Ok(()),
            _ => Err(Self {
                refusal,
                part,
                place: packed / 0x1_0000,
            }),
        }
    }
}

/// A refusal by itself is one of the call, at place 0.
impl From<Refusal> for Fault {
    fn from(refusal: Refusal) -> Self {
        Self::new(refusal, Part::Call, 0)
    }
}

impl fmt::Display for Fault {
    fn fmt(&self, text: &mut fmt::Formatter<'_>) -> fmt::Result {
        write!(
            text,
            "refused {} {} {}",
            self.refusal, self.part, self.place
        )
    }
}

#[cfg(test)]
mod tests {
    use super::*;

    #[test]
    fn a_fault_is_printed_as_three_numbers() {
        let fault = Fault::new(Refusal::CoefficientOutOfRange, Part::Pad, 7);
        assert_eq!(fault.to_string(), "refused 1 2 7");
        assert_eq!(
            Fault::from(Refusal::RouteOutOfRange).to_string(),
            "refused 17 0 0"
        );
    }

    #[test]
    fn packing_and_reading_undo_each_other() {
        let fault = Fault::new(Refusal::BadRecord, Part::Tape, 49_137);
        assert_eq!(fault.packed(), 16 + 4 * 256 + 49_137 * 65_536);
        assert_eq!(Fault::from_packed(fault.packed()), Err(fault));
        assert_eq!(Fault::from_packed(0), Ok(()));
    }
}
