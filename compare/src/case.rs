//! One question that is put to both sides, and an answer to it.

use crate::fault::Fault;
use crate::field::Form;
use crate::hex;
use crate::opinion::Opinion;
use std::fmt;

/// A question with its inputs.
#[derive(Clone, Debug, PartialEq, Eq)]
pub enum Case {
    /// The product of two values.
    Product {
        /// The form of both.
        form: Form,
        /// The first one's coefficients.
        a: Vec<u16>,
        /// The second one's coefficients.
        b: Vec<u16>,
    },
    /// The inverse of a value.
    Inverse {
        /// Its form.
        form: Form,
        /// Its coefficients.
        a: Vec<u16>,
    },
    /// The encoding of a value.
    Encode {
        /// Its form.
        form: Form,
        /// Its coefficients.
        a: Vec<u16>,
        /// How many bytes are lent for it.
        room: usize,
    },
    /// The value of an encoding.
    Decode {
        /// Its form.
        form: Form,
        /// The encoding, or what is taken for one.
        bytes: Vec<u8>,
    },
    /// The tag of a body.
    Tag {
        /// The form of key, pad and tag.
        form: Form,
        /// The encoded key.
        key: Vec<u8>,
        /// The encoded pad.
        pad: Vec<u8>,
        /// The body.
        body: Vec<u8>,
    },
    /// A whole shift.
    Shift {
        /// Key, count of pads, pads and tape.
        input: Vec<u8>,
    },
}

/// What one side says, and what it left in the memory that it was lent, with the guard behind.
#[derive(Clone, Debug, PartialEq, Eq)]
pub enum Answer {
    /// Of calls that write coefficients.
    Numbers(Result<(), Fault>, Vec<u16>),
    /// Of calls that write bytes.
    Bytes(Result<(), Fault>, Vec<u8>),
    /// Of a shift: the text, then the guard.
    Text(Vec<u8>, Vec<u8>),
    /// Of a shift: more bytes claimed than were lent.
    Overflow(usize),
}

/// Items behind what is lent, which nobody may touch.
const GUARD: usize = 8;
/// What memory holds before it is lent.
const FILL: u8 = 0xA5;

impl Case {
    /// Puts the question.
    pub fn ask(&self, opinion: &dyn Opinion) -> Answer {
        match self {
            Self::Product { form, a, b } => {
                lend_numbers(*form, |out| opinion.product(*form, a, b, out))
            }
            Self::Inverse { form, a } => lend_numbers(*form, |out| opinion.inverse(*form, a, out)),
            Self::Encode { form, a, room } => {
                lend_bytes(*room, |out| opinion.encode(*form, a, out))
            }
            Self::Decode { form, bytes } => {
                lend_numbers(*form, |out| opinion.decode(*form, bytes, out))
            }
            Self::Tag {
                form,
                key,
                pad,
                body,
            } => lend_bytes(form.field().encoded_size(), |out| {
                opinion.tag(*form, key, pad, body, out)
            }),
            Self::Shift { input } => {
                // A record has two bytes or more and a line fewer than 32; there are two besides.
                let room = 32 * (input.len() / 2 + 3);
                let mut memory = vec![FILL; room + GUARD];
                let length = opinion.shift(input, &mut memory[..room]);
                if length > room {
                    return Answer::Overflow(length);
                }
                let guard = memory.split_off(room);
                memory.truncate(length);
                Answer::Text(memory, guard)
            }
        }
    }
}

fn lend_numbers(form: Form, call: impl FnOnce(&mut [u16]) -> Result<(), Fault>) -> Answer {
    let room = form.field().count;
    let mut memory = vec![u16::from_be_bytes([FILL, FILL]); room + GUARD];
    let done = call(&mut memory[..room]);
    Answer::Numbers(done, memory)
}

fn lend_bytes(room: usize, call: impl FnOnce(&mut [u8]) -> Result<(), Fault>) -> Answer {
    let mut memory = vec![FILL; room + GUARD];
    let done = call(&mut memory[..room]);
    Answer::Bytes(done, memory)
}

impl fmt::Display for Case {
    fn fmt(&self, text: &mut fmt::Formatter<'_>) -> fmt::Result {
        let (numbers, bytes) = (hex::of_numbers, hex::of_bytes);
        match self {
            Self::Product { form, a, b } => {
                write!(
                    text,
                    "product {} {} {}",
                    form.name(),
                    numbers(a),
                    numbers(b)
                )
            }
            Self::Inverse { form, a } => write!(text, "inverse {} {}", form.name(), numbers(a)),
            Self::Encode { form, a, room } => {
                write!(
                    text,
                    "encode {} {} into {room} bytes",
                    form.name(),
                    numbers(a)
                )
            }
            Self::Decode { form, bytes: row } => {
                write!(text, "decode {} {}", form.name(), bytes(row))
            }
            Self::Tag {
                form,
                key,
                pad,
                body,
            } => write!(
                text,
                "tag {} key {} pad {} body {}",
                form.name(),
                bytes(key),
                bytes(pad),
                bytes(body)
            ),
            Self::Shift { input } => write!(text, "shift {}", bytes(input)),
        }
    }
}

impl fmt::Display for Answer {
    fn fmt(&self, text: &mut fmt::Formatter<'_>) -> fmt::Result {
        let (done, memory) = match self {
            Self::Numbers(done, memory) => (done, hex::of_numbers(memory)),
            Self::Bytes(done, memory) => (done, hex::of_bytes(memory)),
            Self::Text(lines, guard) => {
                let lines = lines.escape_ascii();
                return write!(text, "\"{lines}\", guard {}", hex::of_bytes(guard));
            }
            Self::Overflow(length) => return write!(text, "claims {length} bytes of text"),
        };
        match done {
            Ok(()) => write!(text, "done, memory {memory}"),
            Err(fault) => write!(text, "{fault}, memory {memory}"),
        }
    }
}

impl Answer {
    /// What kinds of answer this is, without places, values and counts: one for a call, one for
    /// each line of a shift but the last.
    pub fn kinds(&self) -> Vec<String> {
        match self {
            Self::Numbers(done, _) | Self::Bytes(done, _) => vec![match done {
                Ok(()) => "done".to_owned(),
                Err(fault) => format!("refused {} {}", fault.refusal, fault.part),
            }],
            Self::Text(lines, _) => String::from_utf8_lossy(lines)
                .lines()
                .filter(|line| !line.starts_with("end"))
                .map(line_kind)
                .collect(),
            Self::Overflow(_) => vec!["overflow".to_owned()],
        }
    }
}

fn line_kind(line: &str) -> String {
    let words: Vec<&str> = line.split(' ').collect();
    match words[..] {
        [_, "refused", refusal, part, _] => format!("refused {refusal} {part}"),
        [_, word, ..] => word.to_owned(),
        _ => line.to_owned(),
    }
}

#[cfg(test)]
mod tests {
    use super::*;
    use crate::opinion::Own;

    #[test]
    fn a_refusal_leaves_the_memory_as_it_was() {
        let case = Case::Encode {
            form: Form::Short4093,
            a: vec![3, 5],
            room: 4,
        };
        assert_eq!(
            case.ask(&Own).to_string(),
            "refused 3 0 0, memory A5A5A5A5A5A5A5A5A5A5A5A5"
        );
        assert_eq!(case.to_string(), "encode short-4093 0003,0005 into 4 bytes");
    }

    #[test]
    fn kinds_of_lines() {
        let text = b"1 pass 5\n2 refused 16 4 18\nend 2\n".to_vec();
        let answer = Answer::Text(text, vec![]);
        assert_eq!(answer.kinds(), ["pass", "refused 16 4"]);
    }
}
