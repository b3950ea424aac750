//! Polynomials of eight coefficients with X^8 = 2.

use super::field::{Coordinates, Field};
use super::prime::Modulus;
use std::array::from_fn;
use std::marker::PhantomData;

#[derive(Clone, Copy)]
pub struct Polynomial<M> {
    numbers: [u16; 8],
    modulus: PhantomData<M>,
}

/// The product of two polynomials with X^N = 2, N at most 8: products are summed up before the one remainder of each place.
fn product<M: Modulus, const N: usize>(f: &[u16; N], h: &[u16; N]) -> [u16; N] {
    // Of 2·h and then h, the numbers from place N − i on are those of X^i·h.
    let mut row = [0; 16];
    for k in 0..N {
        row[k] = 2 * h[k];
        row[N + k] = h[k];
    }
    let mut sums = [0u32; N];
    for i in 0..N {
        for k in 0..N {
            sums[k] += u32::from(f[i]) * u32::from(row[N - i + k]);
        }
    }
    sums.map(|sum| (sum % M::Q) as u16)
}

/// The inverse with X^N = 2, where H is half of N. With e and o for the even and odd powers, polynomials in Y = X²,
/// it is (e − X·o)/d, and d = e² − Y·o² is inverted with Y^H = 2.
fn by_halves<M: Modulus, const N: usize, const H: usize>(
    f: &[u16; N],
    inverse: impl Fn(&[u16; H]) -> Option<[u16; H]>,
) -> Option<[u16; N]> {
    let even = from_fn(|k| f[2 * k]);
    let odd = from_fn(|k| f[2 * k + 1]);
    let squares: [[u16; H]; 2] = [product::<M, H>(&even, &even), product::<M, H>(&odd, &odd)];
    let norm = from_fn(|k| {
        let taken = if k == 0 { 2 * u32::from(squares[1][H - 1]) } else { u32::from(squares[1][k - 1]) };
        ((u32::from(squares[0][k]) + 2 * M::Q - taken) % M::Q) as u16
    });
    let factor = inverse(&norm)?;
    let low = product::<M, H>(&even, &factor);
    let high = product::<M, H>(&odd, &factor);
    Some(from_fn(|k| match (k % 2, high[k / 2]) {
        (0, _) => low[k / 2],
        (_, 0) => 0,
        (_, number) => M::Q as u16 - number,
    }))
}

impl<M: Modulus> Polynomial<M> {
    fn of(numbers: [u16; 8]) -> Self {
        Self { numbers, modulus: PhantomData }
    }
}

impl<M: Modulus> Field for Polynomial<M> {
    fn zero() -> Self {
        Self::of([0; 8])
    }

    fn one() -> Self {
        Self::of([1, 0, 0, 0, 0, 0, 0, 0])
    }

    fn add(self, other: Self) -> Self {
        let q = M::Q as u16;
        Self::of(from_fn(|k| {
            let sum = self.numbers[k] + other.numbers[k];
            if sum < q { sum } else { sum - q }
        }))
    }

    fn neg(self) -> Self {
        Self::of(self.numbers.map(|number| if number == 0 { 0 } else { M::Q as u16 - number }))
    }

    fn mul(self, other: Self) -> Self {
        Self::of(product::<M, 8>(&self.numbers, &other.numbers))
    }

    fn square(self) -> Self {
        self.mul(self)
    }

    fn inverse(self) -> Option<Self> {
        let one = |f: &[u16; 1]| (f[0] != 0).then(|| [M::inverse_of(f[0])]);
        let two = |f: &[u16; 2]| by_halves::<M, 2, 1>(f, one);
        let four = |f: &[u16; 4]| by_halves::<M, 4, 2>(f, two);
        by_halves::<M, 8, 4>(&self.numbers, four).map(Self::of)
    }

    fn mul_by_non_residue(self) -> Self {
        let [f0, f1, f2, f3, f4, f5, f6, f7] = self.numbers;
        let double = u32::from(f7) * 2 % M::Q;
        Self::of([double as u16, f0, f1, f2, f3, f4, f5, f6])
    }
}

impl<M: Modulus> Coordinates for Polynomial<M> {
    const MODULUS: u16 = M::Q as u16;
    const WIDTH: usize = M::WIDTH;
    const COUNT: usize = 8;

    fn coefficient(self, power: usize) -> u16 {
        self.numbers[power]
    }

    fn build(at: impl Fn(usize) -> u16) -> Self {
        Self::of(from_fn(at))
    }
}
