//! A validator of tickets.

use super::fault::{Fault, Refusal};
use super::field::Coordinates;
use super::tag::{read_key, ticket_number, ticket_route};

#[derive(Clone, Copy, PartialEq, Eq)]
enum Mark {
    Blank,
    Ridden,
    Cancelled,
}

pub struct Validator<F> {
    key: F,
    marks: [Mark; 1024],
    counts: [u16; 64],
}

impl<F: Coordinates> Validator<F> {
    pub fn new(key: &[u8]) -> Result<Self, Fault> {
        Ok(Self {
            key: read_key(key)?,
            marks: [Mark::Blank; 1024],
            counts: [0; 64],
        })
    }

    fn must_be_blank(&self, number: usize) -> Result<(), Fault> {
        match self.marks[number] {
            Mark::Blank => Ok(()),
            Mark::Ridden => Err(Fault::of_call(Refusal::TicketRidden)),
            Mark::Cancelled => Err(Fault::of_call(Refusal::TicketCancelled)),
        }
    }

    pub fn check(&mut self, ticket: &[u8], pads: &[u8]) -> Result<u8, Fault> {
        let number = ticket_number::<F>(pads, ticket)?;
        self.must_be_blank(number)?;
        let route = ticket_route(self.key, pads, number, ticket)?;
        self.marks[number] = Mark::Ridden;
        let count = &mut self.counts[usize::from(route)];
        *count = count.saturating_add(1);
        Ok(route)
    }

    /// Of a number below 1024.
    pub fn cancel(&mut self, number: u16) -> Result<(), Fault> {
        self.must_be_blank(usize::from(number))?;
        self.marks[usize::from(number)] = Mark::Cancelled;
        Ok(())
    }

    /// Of a route below 64.
    pub fn report(&self, route: u8) -> u16 {
        self.counts[usize::from(route)]
    }
}
