//! Remainders by a prime modulus.

use super::field::{Coordinates, Field, Quadratic};
use std::marker::PhantomData;

pub trait Modulus: Copy {
    const Q: u32;
    const WIDTH: usize;
    /// The inverse of each number below the modulus, and 0 for 0.
    fn inverse_of(number: u16) -> u16;
}

/// All inverses: n·(q/n) is q less the remainder of q by n, whose inverse is already there.
const fn inverses<const Q: usize>() -> [u16; Q] {
    let mut table = [0; Q];
    table[1] = 1;
    let mut n = 2;
    while n < Q {
        table[n] = ((Q - Q / n) * table[Q % n] as usize % Q) as u16;
        n += 1;
    }
    table
}

static INVERSES_4093: [u16; 4093] = inverses();
static INVERSES_1021: [u16; 1021] = inverses();

#[derive(Clone, Copy)]
pub struct P4093;

impl Modulus for P4093 {
    const Q: u32 = 4093;
    const WIDTH: usize = 12;

    fn inverse_of(number: u16) -> u16 {
        INVERSES_4093[usize::from(number)]
    }
}

#[derive(Clone, Copy)]
pub struct P1021;

impl Modulus for P1021 {
    const Q: u32 = 1021;
    const WIDTH: usize = 10;

    fn inverse_of(number: u16) -> u16 {
        INVERSES_1021[usize::from(number)]
    }
}

/// A number below the modulus.
#[derive(Clone, Copy)]
pub struct Residue<M> {
    number: u16,
    modulus: PhantomData<M>,
}

pub type ShortTower<M> = Quadratic<Residue<M>>;
pub type LongTower<M> = Quadratic<Quadratic<Quadratic<Residue<M>>>>;

impl<M: Modulus> Residue<M> {
    fn of(number: u32) -> Self {
        Self {
            number: (number % M::Q) as u16,
            modulus: PhantomData,
        }
    }
}

impl<M: Modulus> Field for Residue<M> {
    fn zero() -> Self {
        Self::of(0)
    }

    fn one() -> Self {
        Self::of(1)
    }

    fn add(self, other: Self) -> Self {
        let sum = self.number + other.number;
        let q = M::Q as u16;
        Self {
            number: if sum < q { sum } else { sum - q },
            modulus: PhantomData,
        }
    }

    fn neg(self) -> Self {
        let rest = M::Q as u16 - self.number;
        Self {
            number: if self.number == 0 { 0 } else { rest },
            modulus: PhantomData,
        }
    }

    fn mul(self, other: Self) -> Self {
        Self::of(u32::from(self.number) * u32::from(other.number))
    }

    fn square(self) -> Self {
        self.mul(self)
    }

    fn inverse(self) -> Option<Self> {
        (self.number != 0).then(|| Self {
            number: M::inverse_of(self.number),
            modulus: PhantomData,
        })
    }

    fn mul_by_non_residue(self) -> Self {
        self.add(self)
    }
}

impl<M: Modulus> Coordinates for Residue<M> {
    const MODULUS: u16 = M::Q as u16;
    const WIDTH: usize = M::WIDTH;
    const COUNT: usize = 1;

    fn coefficient(self, _: usize) -> u16 {
        self.number
    }

    fn build(at: impl Fn(usize) -> u16) -> Self {
        Self {
            number: at(0),
            modulus: PhantomData,
        }
    }
}
