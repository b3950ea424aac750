//! Fields, and the quadratic extension of any field.

pub trait Field: Copy {
    fn zero() -> Self;
    fn one() -> Self;
    fn add(self, other: Self) -> Self;
    fn neg(self) -> Self;
    fn mul(self, other: Self) -> Self;
    fn square(self) -> Self;
    /// `None` for zero.
    fn inverse(self) -> Option<Self>;
    fn mul_by_non_residue(self) -> Self;
}

/// Values that are known by their coefficients by power of X.
pub trait Coordinates: Field {
    const MODULUS: u16;
    /// The bits of a coefficient.
    const WIDTH: usize;
    const COUNT: usize;

    fn coefficient(self, power: usize) -> u16;
    /// The value with these coefficients, each below the modulus.
    fn build(at: impl Fn(usize) -> u16) -> Self;
}

/// a0 + a1·g, where g·g is the non-residue of the field below.
#[derive(Clone, Copy)]
pub struct Quadratic<F> {
    a0: F,
    a1: F,
}

impl<F: Field> Field for Quadratic<F> {
    fn zero() -> Self {
        Self { a0: F::zero(), a1: F::zero() }
    }

    fn one() -> Self {
        Self { a0: F::one(), a1: F::zero() }
    }

    fn add(self, other: Self) -> Self {
        Self {
            a0: self.a0.add(other.a0),
            a1: self.a1.add(other.a1),
        }
    }

    fn neg(self) -> Self {
        Self {
            a0: self.a0.neg(),
            a1: self.a1.neg(),
        }
    }

    fn mul(self, other: Self) -> Self {
        let high = self.a1.mul(other.a1);
        Self {
            a0: self.a0.mul(other.a0).add(high.mul_by_non_residue()),
            a1: self.a0.mul(other.a1).add(self.a1.mul(other.a0)),
        }
    }

    fn square(self) -> Self {
        let cross = self.a0.mul(self.a1);
        Self {
            a0: self.a0.square().add(self.a1.square().mul_by_non_residue()),
            a1: cross.add(cross),
        }
    }

    fn inverse(self) -> Option<Self> {
        let norm = self.a0.square().add(self.a1.square().mul_by_non_residue().neg());
        let factor = norm.inverse()?;
        Some(Self {
            a0: self.a0.mul(factor),
            a1: self.a1.mul(factor).neg(),
        })
    }

    fn mul_by_non_residue(self) -> Self {
        Self {
            a0: self.a1.mul_by_non_residue(),
            a1: self.a0,
        }
    }
}

impl<F: Coordinates> Coordinates for Quadratic<F> {
    const MODULUS: u16 = F::MODULUS;
    const WIDTH: usize = F::WIDTH;
    const COUNT: usize = 2 * F::COUNT;

    fn coefficient(self, power: usize) -> u16 {
        let half = if power % 2 == 0 { self.a0 } else { self.a1 };
        half.coefficient(power / 2)
    }

    fn build(at: impl Fn(usize) -> u16) -> Self {
        Self {
            a0: F::build(|k| at(2 * k)),
            a1: F::build(|k| at(2 * k + 1)),
        }
    }
}
