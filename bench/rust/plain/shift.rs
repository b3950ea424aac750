//! A whole shift: key, pads and tape in, a line for each record out.

use super::coding::encoded_size;
use super::fault::{Fault, Part, Refusal};
use super::field::Coordinates;
use super::validator::Validator;

pub const LONGEST_INPUT: usize = 49152;

#[derive(Clone, Copy)]
pub enum Line {
    Pass(usize, u8),
    Refused(usize, Fault),
    Cancelled(usize),
    Rides(usize, u16),
    End(usize),
}

enum Record<'tape> {
    Check(&'tape [u8]),
    Cancel(u16),
    Report(u8),
}

/// The record at a place of a tape that does not end there, and the place behind it.
fn record(tape: &[u8], at: usize) -> Result<(Record<'_>, usize), Fault> {
    let fault = |refusal| Fault::new(refusal, Part::Tape, at);
    let head = tape.get(at..at + 2).ok_or(fault(Refusal::TornTape))?;
    let head = u16::from_be_bytes([head[0], head[1]]);
    let number = head % 16384;
    match head / 16384 {
        1 => {
            let end = at + 2 + usize::from(number);
            let ticket = tape.get(at + 2..end).ok_or(fault(Refusal::TornTape))?;
            Ok((Record::Check(ticket), end))
        }
        2 if number < 1024 => Ok((Record::Cancel(number), at + 2)),
        3 if number < 64 => Ok((Record::Report(number as u8), at + 2)),
        _ => Err(fault(Refusal::BadRecord)),
    }
}

fn answer<F: Coordinates>(validator: &mut Validator<F>, pads: &[u8], number: usize, record: Record) -> Line {
    let line = match record {
        Record::Check(ticket) => validator.check(ticket, pads).map(|route| Line::Pass(number, route)),
        Record::Cancel(ticket) => validator.cancel(ticket).map(|()| Line::Cancelled(number)),
        Record::Report(route) => Ok(Line::Rides(number, validator.report(route))),
    };
    line.unwrap_or_else(|fault| Line::Refused(number, fault))
}

fn play_tape<F: Coordinates>(mut validator: Validator<F>, pads: &[u8], tape: &[u8]) -> Vec<Line> {
    let mut lines = vec![];
    let mut at = 0;
    while at < tape.len() {
        let number = lines.len() + 1;
        match record(tape, at) {
            Ok((record, behind)) => {
                lines.push(answer(&mut validator, pads, number, record));
                at = behind;
            }
            Err(fault) => {
                lines.push(Line::Refused(number, fault));
                break;
            }
        }
    }
    lines.push(Line::End(lines.len()));
    lines
}

fn begin<F: Coordinates>(input: &[u8]) -> Result<(Validator<F>, &[u8], &[u8]), Fault> {
    let size = encoded_size::<F>();
    if input.len() < size + 2 || input.len() > LONGEST_INPUT {
        return Err(Fault::of_call(Refusal::WrongSize));
    }
    let (key, rest) = input.split_at(size);
    let (count, rest) = rest.split_at(2);
    let count = usize::from(u16::from_be_bytes([count[0], count[1]]));
    if count < 1 || count > 1024 || rest.len() < count * size {
        return Err(Fault::of_call(Refusal::BadPads));
    }
    let (pads, tape) = rest.split_at(count * size);
    Ok((Validator::new(key)?, pads, tape))
}

pub fn play<F: Coordinates>(input: &[u8]) -> Vec<Line> {
    match begin::<F>(input) {
        Ok((validator, pads, tape)) => play_tape(validator, pads, tape),
        Err(fault) => vec![Line::Refused(0, fault), Line::End(1)],
    }
}
