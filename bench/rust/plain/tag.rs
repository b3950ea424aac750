//! Tags, pads and tickets.

use super::coding::{block_size, decode, encoded_size, from_block};
use super::fault::{Fault, Part, Refusal};
use super::field::Coordinates;

pub const LONGEST_BODY: usize = 440;

pub fn make_tag<F: Coordinates>(key: F, pad: F, body: &[u8]) -> Result<F, Fault> {
    if body.len() < 2 || body.len() > LONGEST_BODY {
        return Err(Fault::of_call(Refusal::WrongLength));
    }
    let absorb = |sum: F, block: &[u8]| sum.add(from_block(block)).mul(key);
    let blocks = body.chunks_exact(block_size::<F>());
    let rest = blocks.remainder();
    let mut sum = blocks.fold(F::zero(), absorb);
    if !rest.is_empty() {
        sum = absorb(sum, rest);
    }
    let length = (body.len() as u16).to_be_bytes();
    Ok(absorb(sum, &length).add(pad))
}

pub fn count_pads<F: Coordinates>(pads: &[u8]) -> Result<usize, Fault> {
    let size = encoded_size::<F>();
    let count = pads.len() / size;
    if count * size != pads.len() || count < 1 || count > 1024 {
        return Err(Fault::of_call(Refusal::BadPads));
    }
    Ok(count)
}

pub fn same<F: Coordinates>(x: F, y: F) -> bool {
    (0..F::COUNT).all(|power| x.coefficient(power) == y.coefficient(power))
}

pub fn read_key<F: Coordinates>(bytes: &[u8]) -> Result<F, Fault> {
    let key = decode(Part::Key, bytes)?;
    if same(key, F::zero()) {
        return Err(Fault::new(Refusal::ZeroKey, Part::Key, 0));
    }
    Ok(key)
}

/// The number of a ticket, once its length, the pads and the number are tested.
pub fn ticket_number<F: Coordinates>(pads: &[u8], ticket: &[u8]) -> Result<usize, Fault> {
    let size = encoded_size::<F>();
    if ticket.len() < size + 2 || ticket.len() > size + LONGEST_BODY {
        return Err(Fault::of_call(Refusal::WrongLength));
    }
    let count = count_pads::<F>(pads)?;
    let number = usize::from(u16::from_be_bytes([ticket[0], ticket[1]])) / 64;
    if number >= count {
        return Err(Fault::of_call(Refusal::NumberOutOfRange));
    }
    Ok(number)
}

/// The route of a ticket of that number, whose length and number are tested already, if its tag is right.
pub fn ticket_route<F: Coordinates>(key: F, pads: &[u8], number: usize, ticket: &[u8]) -> Result<u8, Fault> {
    let size = encoded_size::<F>();
    let (body, tag) = ticket.split_at(ticket.len() - size);
    let pad = decode(Part::Pad, &pads[size * number..][..size])?;
    let claimed = decode(Part::Tag, tag)?;
    if same(make_tag(key, pad, body)?, claimed) {
        Ok(body[1] % 64)
    } else {
        Err(Fault::of_call(Refusal::FalseTag))
    }
}
