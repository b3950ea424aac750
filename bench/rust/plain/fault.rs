//! Why a call is refused.

/// With the engine's numbers.
#[derive(Clone, Copy, Debug, PartialEq, Eq)]
pub enum Refusal {
    CoefficientOutOfRange = 1,
    WrongSize = 3,
    PaddingNotZero = 4,
    WrongLength = 5,
    BadPads = 6,
    ZeroKey = 7,
    NumberOutOfRange = 8,
    TicketCancelled = 9,
    TicketRidden = 10,
    FalseTag = 11,
    TornTape = 15,
    BadRecord = 16,
}

#[derive(Clone, Copy, Debug, PartialEq, Eq)]
pub enum Part {
    Call,
    Key,
    Pad,
    Tag,
    Tape,
}

#[derive(Clone, Copy, Debug, PartialEq, Eq)]
pub struct Fault {
    pub refusal: Refusal,
    pub part: Part,
    pub place: usize,
}

impl Fault {
    pub fn new(refusal: Refusal, part: Part, place: usize) -> Self {
        Self { refusal, part, place }
    }

    pub fn of_call(refusal: Refusal) -> Self {
        Self::new(refusal, Part::Call, 0)
    }
}
