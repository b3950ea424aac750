//! The finite fields, all seen as one kind: polynomials in X over a prime field, where X^c = 2.
//!
//! A product is one multiplication of two large whole numbers, in which the coefficients stand
//! far enough apart that none runs into the next. An inverse comes from the extended algorithm of
//! Euclid on polynomials. A tower is only another order of the same coefficients.

use crate::fault::{Fault, Part, Refusal};
use std::ops::{Add, Mul};

/// No field here has more coefficients.
const MOST: usize = 8;

/// A field: remainders of polynomials by X^count - 2, with coefficients below the modulus.
#[derive(Clone, Copy, Debug, PartialEq, Eq)]
pub struct Field {
    /// The modulus of the coefficients, a prime.
    pub modulus: u64,
    /// How many bits a coefficient takes in an encoding.
    pub width: u32,
    /// How many coefficients a value has, at most eight.
    pub count: usize,
}

/// One of the forms in which the engine keeps values.
#[derive(Clone, Copy, Debug, PartialEq, Eq)]
#[repr(u8)]
pub enum Form {
    /// One extension at 4093.
    Short4093 = 0,
    /// One extension at 1021.
    Short1021 = 1,
    /// Three extensions at 4093.
    Long4093 = 2,
    /// Three extensions at 1021.
    Long1021 = 3,
    /// The polynomial basis at 4093.
    Polynomial4093 = 4,
    /// The polynomial basis at 1021.
    Polynomial1021 = 5,
}

impl Form {
    /// All forms, by number.
    pub const ALL: [Self; 6] = [
        Self::Short4093,
        Self::Short1021,
        Self::Long4093,
        Self::Long1021,
        Self::Polynomial4093,
        Self::Polynomial1021,
    ];

    /// The form's name.
    pub fn name(self) -> &'static str {
        match self {
            Self::Short4093 => "short-4093",
            Self::Short1021 => "short-1021",
            Self::Long4093 => "long-4093",
            Self::Long1021 => "long-1021",
            Self::Polynomial4093 => "polynomial-4093",
            Self::Polynomial1021 => "polynomial-1021",
        }
    }

    /// The field whose values the form keeps.
    pub fn field(self) -> Field {
        match self {
            Self::Short4093 => Field::at_4093(2),
            Self::Short1021 => Field::at_1021(2),
            Self::Long4093 | Self::Polynomial4093 => Field::at_4093(8),
            Self::Long1021 | Self::Polynomial1021 => Field::at_1021(8),
        }
    }
}

impl Field {
    /// The field with so many coefficients at 4093.
    pub const fn at_4093(count: usize) -> Self {
        Self {
            modulus: 4093,
            width: 12,
            count,
        }
    }

    /// The field with so many coefficients at 1021.
    pub const fn at_1021(count: usize) -> Self {
        Self {
            modulus: 1021,
            width: 10,
            count,
        }
    }

    /// Zero.
    pub fn zero(self) -> Value {
        Value {
            field: self,
            powers: [0; MOST],
        }
    }

    /// One.
    pub fn one(self) -> Value {
        let mut powers = [0; MOST];
        powers[0] = 1;
        Value {
            field: self,
            powers,
        }
    }

    /// The value with these coefficients, power 0 first.
    ///
    /// # Errors
    ///
    /// `WrongSize` for another count of numbers, then `CoefficientOutOfRange` at the lowest power
    /// whose number is not below the modulus.
    pub fn value(self, part: Part, numbers: &[u16]) -> Result<Value, Fault> {
        if numbers.len() != self.count {
            return Err(Fault::new(Refusal::WrongSize, part, 0));
        }
        let out_of_range = |number: &u16| u64::from(*number) >= self.modulus;
        if let Some(power) = numbers.iter().position(out_of_range) {
            return Err(Fault::new(Refusal::CoefficientOutOfRange, part, power));
        }
        let mut powers = [0; MOST];
        for (power, number) in powers.iter_mut().zip(numbers) {
            *power = u64::from(*number);
        }
        Ok(Value {
            field: self,
            powers,
        })
    }
}

/// A value of a field. Coefficients from the field's count on are 0.
#[derive(Clone, Copy, Debug, PartialEq, Eq)]
pub struct Value {
    field: Field,
    powers: [u64; MOST],
}

impl Value {
    /// The field that the value is of.
    pub fn field(&self) -> Field {
        self.field
    }

    /// The coefficients, power 0 first.
    pub fn coefficients(&self) -> Vec<u16> {
        self.powers[..self.field.count]
            .iter()
            .map(|power| u16::try_from(*power).expect("a coefficient is small"))
            .collect()
    }

    /// Whether the value is zero.
    pub fn is_zero(&self) -> bool {
        self.powers == [0; MOST]
    }

    /// The value whose product with this one is 1.
    ///
    /// # Errors
    ///
    /// `ZeroHasNoInverse` for zero.
    pub fn inverse(&self) -> Result<Self, Fault> {
        if self.is_zero() {
            return Err(Refusal::ZeroHasNoInverse.into());
        }
        let modulus = self.field.modulus;
        // X^count - 2, by which the remainders are taken.
        let mut divisor = vec![0; self.field.count + 1];
        divisor[0] = modulus - 2;
        divisor[self.field.count] = 1;
        let inverse = euclid::inverse_polynomial(modulus, divisor, self.powers.to_vec());
        let mut powers = [0; MOST];
        powers[..inverse.len()].copy_from_slice(&inverse);
        Ok(Self {
            field: self.field,
            powers,
        })
    }
}

impl Add for Value {
    type Output = Self;

    fn add(mut self, other: Self) -> Self {
        assert_eq!(self.field, other.field, "both are of one field");
        for (sum, power) in self.powers.iter_mut().zip(other.powers) {
            *sum = (*sum + power) % self.field.modulus;
        }
        self
    }
}

impl Mul for Value {
    type Output = Self;

    fn mul(self, other: Self) -> Self {
        assert_eq!(self.field, other.field, "both are of one field");
        let Field { modulus, count, .. } = self.field;
        let slots = large::slots(large::product(
            large::packed(self.powers),
            large::packed(other.powers),
        ));
        let mut powers = [0; MOST];
        for (power, coefficient) in powers.iter_mut().enumerate().take(count) {
            // X^(power + count) is twice X^power.
            *coefficient = (slots[power] + 2 * slots[power + count]) % modulus;
        }
        Self {
            field: self.field,
            powers,
        }
    }
}

/// Large whole numbers that carry a polynomial: the coefficient of X^k is the digit of 2^(32·k).
///
/// A sum of eight products of coefficients is below 8·4093², which is far below 2^32, so the
/// product of two such numbers carries the product of the polynomials.
mod large {
    use super::MOST;

    /// A number of 256 bits, the lowest word first.
    type Factor = [u64; MOST / 2];
    /// A number of 512 bits, the lowest word first.
    type Product = [u64; MOST];

    /// The number that carries these coefficients.
    pub fn packed(powers: [u64; MOST]) -> Factor {
        let mut number = [0; MOST / 2];
        for (word, pair) in number.iter_mut().zip(powers.chunks(2)) {
            *word = pair[0] + (pair[1] << 32);
        }
        number
    }

    /// The product of two numbers, as on paper, with digits of 64 bits.
    pub fn product(a: Factor, b: Factor) -> Product {
        let mut product = [0; MOST];
        for (low, digit) in a.into_iter().enumerate() {
            let mut carry = 0;
            for (high, other) in b.into_iter().enumerate() {
                let place = &mut product[low + high];
                let sum = u128::from(digit) * u128::from(other) + u128::from(*place) + carry;
                *place = low_word(sum);
                carry = sum >> 64;
            }
            product[low + b.len()] = low_word(carry);
        }
        product
    }

    /// The coefficients that a product carries.
    pub fn slots(product: Product) -> [u64; 2 * MOST] {
        let mut slots = [0; 2 * MOST];
        for (pair, word) in slots.chunks_mut(2).zip(product) {
            pair[0] = word & 0xFFFF_FFFF;
            pair[1] = word >> 32;
        }
        slots
    }

    fn low_word(number: u128) -> u64 {
        u64::try_from(number & u128::from(u64::MAX)).expect("64 bits are left")
    }
}

/// Euclid's algorithm, extended so that it tells inverses: for numbers and for polynomials.
mod euclid {
    /// A polynomial, power 0 first, without zeros at the end; zero is empty.
    type Polynomial = Vec<u64>;

    /// The inverse of a number by a prime modulus; the number is no multiple of it.
    pub fn inverse_number(modulus: u64, number: u64) -> u64 {
        let signed = |number: u64| i64::try_from(number).expect("moduli are small");
        // Of each remainder: how many times the number it is, up to multiples of the modulus.
        let (mut before, mut times_before) = (signed(modulus), 0);
        let (mut now, mut times_now) = (signed(number % modulus), 1);
        while now != 0 {
            let quotient = before / now;
            (before, now) = (now, before - quotient * now);
            (times_before, times_now) = (times_now, times_before - quotient * times_now);
        }
        assert_eq!(
            before, 1,
            "the modulus is prime and does not divide the number"
        );
        u64::try_from(times_before.rem_euclid(signed(modulus))).expect("it is not negative")
    }

    /// The inverse of a polynomial by an irreducible divisor, which does not divide it.
    pub fn inverse_polynomial(
        modulus: u64,
        divisor: Polynomial,
        polynomial: Polynomial,
    ) -> Polynomial {
        let (mut before, mut times_before) = (divisor, vec![]);
        let (mut now, mut times_now) = (trimmed(polynomial), vec![1]);
        while !now.is_empty() {
            let (quotient, remainder) = divided(modulus, before, &now);
            let times_next = less_product(modulus, times_before, &quotient, &times_now);
            (before, now) = (now, remainder);
            (times_before, times_now) = (times_now, times_next);
        }
        assert_eq!(before.len(), 1, "the divisor has no factor in common");
        let factor = inverse_number(modulus, before[0]);
        times_before
            .into_iter()
            .map(|coefficient| coefficient * factor % modulus)
            .collect()
    }

    /// Quotient and remainder of a division by a polynomial that is not zero.
    fn divided(modulus: u64, polynomial: Polynomial, by: &[u64]) -> (Polynomial, Polynomial) {
        let highest = by[by.len() - 1];
        let factor = inverse_number(modulus, highest);
        let mut rest = polynomial;
        let mut quotient = vec![0; (rest.len() + 1).saturating_sub(by.len())];
        for shift in (0..quotient.len()).rev() {
            let digit = rest[shift + by.len() - 1] * factor % modulus;
            for (place, coefficient) in rest[shift..].iter_mut().zip(by) {
                *place = (*place + (modulus - digit) * coefficient) % modulus;
            }
            quotient[shift] = digit;
        }
        (trimmed(quotient), trimmed(rest))
    }

    /// a - b·c
    fn less_product(modulus: u64, a: Polynomial, b: &[u64], c: &[u64]) -> Polynomial {
        let mut result = a;
        result.resize(result.len().max(b.len() + c.len()), 0);
        for (low, x) in b.iter().enumerate() {
            for (high, y) in c.iter().enumerate() {
                let place = &mut result[low + high];
                *place = (*place + (modulus - x) * y) % modulus;
            }
        }
        trimmed(result)
    }

    fn trimmed(mut polynomial: Polynomial) -> Polynomial {
        while polynomial.last() == Some(&0) {
            polynomial.pop();
        }
        polynomial
    }
}

/// From the order of a tower to the order by power: the even powers are those of the first half,
/// the odd ones those of the second half, and so on inside of both.
pub fn by_power(tower: &[u16]) -> Vec<u16> {
    if tower.len() < 2 {
        return tower.to_vec();
    }
    let (first, second) = tower.split_at(tower.len() / 2);
    let (even, odd) = (by_power(first), by_power(second));
    even.into_iter()
        .zip(odd)
        .flat_map(|(even, odd)| [even, odd])
        .collect()
}

/// From the order by power to the order of a tower.
pub fn by_tower(powers: &[u16]) -> Vec<u16> {
    if powers.len() < 2 {
        return powers.to_vec();
    }
    let even: Vec<u16> = powers.iter().copied().step_by(2).collect();
    let odd: Vec<u16> = powers.iter().copied().skip(1).step_by(2).collect();
    [by_tower(&even), by_tower(&odd)].concat()
}

#[cfg(test)]
mod tests {
    use super::*;
    use crate::random::Random;

    const SHORT: Field = Field::at_4093(2);
    const SMALL: Field = Field::at_1021(2);
    const EIGHT: Field = Field::at_4093(8);

    fn value(field: Field, numbers: &[u16]) -> Value {
        field.value(Part::Call, numbers).expect("a value")
    }

    /// A value given in the order of a tower.
    fn tower(field: Field, numbers: &[u16]) -> Value {
        value(field, &by_power(numbers))
    }

    fn power(field: Field, power: usize) -> Value {
        let mut numbers = vec![0; field.count];
        numbers[power] = 1;
        value(field, &numbers)
    }

    fn any(random: &mut Random, field: Field) -> Value {
        let modulus = usize::try_from(field.modulus).expect("small");
        let numbers: Vec<u16> = (0..field.count)
            .map(|_| u16::try_from(random.below(modulus)).expect("small"))
            .collect();
        value(field, &numbers)
    }

    /// The product from its definition, term by term.
    fn term_by_term(a: &Value, b: &Value) -> Vec<u16> {
        let Field { modulus, count, .. } = a.field();
        let mut sums = vec![0; count];
        for (i, x) in a.coefficients().into_iter().enumerate() {
            for (j, y) in b.coefficients().into_iter().enumerate() {
                let factor = if i + j < count { 1 } else { 2 };
                sums[(i + j) % count] += factor * u64::from(x) * u64::from(y);
            }
        }
        sums.into_iter()
            .map(|sum| u16::try_from(sum % modulus).expect("small"))
            .collect()
    }

    /// The product in a tower from its definition, pair by pair; lists are in the tower's order.
    fn pair_by_pair(modulus: u64, a: &[u64], b: &[u64]) -> Vec<u64> {
        if a.len() == 1 {
            return vec![a[0] * b[0] % modulus];
        }
        let (a0, a1) = a.split_at(a.len() / 2);
        let (b0, b1) = b.split_at(b.len() / 2);
        let times = |x: &[u64], y: &[u64]| pair_by_pair(modulus, x, y);
        let plus = |x: Vec<u64>, y: Vec<u64>| -> Vec<u64> {
            x.into_iter()
                .zip(y)
                .map(|(x, y)| (x + y) % modulus)
                .collect()
        };
        let mut non_residue = vec![0; a0.len()];
        if a0.len() == 1 {
            non_residue[0] = 2;
        } else {
            non_residue[a0.len() / 2] = 1;
        }
        let first = plus(times(a0, b0), times(&non_residue, &times(a1, b1)));
        let second = plus(times(a0, b1), times(a1, b0));
        [first, second].concat()
    }

    #[test]
    fn product_in_a_short_tower() {
        let product = value(SHORT, &[3, 5]) * value(SHORT, &[7, 11]);
        assert_eq!(product.coefficients(), [131, 68]);
    }

    #[test]
    fn inverses_in_short_towers() {
        let inverse = |field| value(field, &[3, 5]).inverse().expect("not zero");
        assert_eq!(inverse(SHORT).coefficients(), [2296, 2995]);
        assert_eq!(inverse(SMALL).coefficients(), [747, 797]);
        assert_eq!(value(SHORT, &[3, 5]) * inverse(SHORT), SHORT.one());
    }

    #[test]
    fn zero_has_no_inverse() {
        for form in Form::ALL {
            let refused = form.field().zero().inverse();
            assert_eq!(refused, Err(Refusal::ZeroHasNoInverse.into()));
        }
    }

    #[test]
    fn inverses_of_numbers() {
        assert_eq!(euclid::inverse_number(4093, 2), 2047);
        assert_eq!(euclid::inverse_number(1021, 2), 511);
        assert_eq!(euclid::inverse_number(4093, 41), 599);
        for modulus in [4093, 1021] {
            for number in 1..modulus {
                assert_eq!(
                    number * euclid::inverse_number(modulus, number) % modulus,
                    1
                );
            }
        }
    }

    #[test]
    fn two_is_no_square_and_minus_one_is() {
        for modulus in [4093_u64, 1021] {
            assert!((0..modulus).all(|number| number * number % modulus != 2));
        }
        assert_eq!(1059 * 1059 % 4093, 4092);
        assert_eq!(374 * 374 % 1021, 1020);
    }

    #[test]
    fn square_at_height_two() {
        let value = tower(Field::at_4093(4), &[0, 0, 1, 0]);
        let square = value * value;
        assert_eq!(by_tower(&square.coefficients()), [0, 1, 0, 0]);
    }

    #[test]
    fn orders_of_eight() {
        let places: Vec<u16> = (0..8).collect();
        assert_eq!(by_tower(&places), [0, 4, 2, 6, 1, 5, 3, 7]);
        assert_eq!(by_power(&by_tower(&places)), places);
        assert_eq!(
            by_power(&[1, 5, 3, 7, 2, 6, 4, 8]),
            [1, 2, 3, 4, 5, 6, 7, 8]
        );
    }

    #[test]
    fn powers_of_x() {
        let product = power(EIGHT, 7) * power(EIGHT, 3);
        assert_eq!(product.coefficients(), [0, 0, 2, 0, 0, 0, 0, 0]);
        let shifted = value(EIGHT, &[1, 2, 3, 4, 5, 6, 7, 8]) * power(EIGHT, 1);
        assert_eq!(shifted.coefficients(), [16, 1, 2, 3, 4, 5, 6, 7]);
    }

    #[test]
    fn coefficients_are_tested_from_power_0_up() {
        let fault = |numbers: &[u16]| SHORT.value(Part::Call, numbers).expect_err("refused");
        assert_eq!(value(SHORT, &[0, 4092]).coefficients(), [0, 4092]);
        assert_eq!(fault(&[0, 4093]).to_string(), "refused 1 0 1");
        assert_eq!(fault(&[5000, 4093]).to_string(), "refused 1 0 0");
        assert_eq!(fault(&[4093, 0, 0]).to_string(), "refused 3 0 0");
        assert_eq!(fault(&[]).to_string(), "refused 3 0 0");
    }

    #[test]
    fn products_agree_with_both_definitions() {
        let mut random = Random::new(1);
        for field in [SHORT, SMALL, Field::at_4093(4), EIGHT, Field::at_1021(8)] {
            for _ in 0..300 {
                let (a, b) = (any(&mut random, field), any(&mut random, field));
                let product = (a * b).coefficients();
                assert_eq!(product, term_by_term(&a, &b));
                let wide = |value: &Value| -> Vec<u64> {
                    by_tower(&value.coefficients())
                        .into_iter()
                        .map(u64::from)
                        .collect()
                };
                let pairs = pair_by_pair(field.modulus, &wide(&a), &wide(&b));
                assert_eq!(wide(&(a * b)), pairs);
            }
        }
    }

    #[test]
    fn the_largest_coefficients_do_not_run_together() {
        for form in Form::ALL {
            let field = form.field();
            let largest = u16::try_from(field.modulus - 1).expect("small");
            let value = value(field, &vec![largest; field.count]);
            assert_eq!((value * value).coefficients(), term_by_term(&value, &value));
        }
    }

    #[test]
    fn inverses_multiply_to_one() {
        let mut random = Random::new(2);
        for form in Form::ALL {
            for _ in 0..300 {
                let value = any(&mut random, form.field());
                if !value.is_zero() {
                    assert_eq!(
                        value * value.inverse().expect("not zero"),
                        form.field().one()
                    );
                }
            }
            for k in 0..form.field().count {
                let value = power(form.field(), k);
                assert_eq!(
                    value * value.inverse().expect("not zero"),
                    form.field().one()
                );
            }
        }
    }
}
