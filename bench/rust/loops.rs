//! The loops of the engine's kernels, over the plain fields. As there, each loop is a function by itself.

use crate::plain::coding::{decode, encode};
use crate::plain::fault::Part;
use crate::plain::field::{Coordinates, Field, Quadratic};
use crate::plain::polynomial::Polynomial;
use crate::plain::prime::{LongTower, P1021, P4093, Residue, ShortTower};
use crate::plain::shift::{Line, play};
use crate::plain::tag::make_tag;
use crate::plain::validator::Validator;

fn value<F: Coordinates>(numbers: &[u16]) -> F {
    F::build(|power| numbers[power])
}

fn show<F: Coordinates>(x: F, out: &mut [u16]) {
    for (power, number) in out.iter_mut().enumerate() {
        *number = x.coefficient(power);
    }
}

/// Each value is the product of the two before it.
#[inline(never)]
fn products_from<F: Field>(turns: u32, mut y: F, mut x: F) -> F {
    for _ in 0..turns {
        (x, y) = (x.mul(y), x);
    }
    x
}

/// Four values, one step apart.
fn apart<F: Field>(first: F, step: F) -> [F; 4] {
    let second = first.add(step);
    let third = second.add(step);
    [first, second, third, third.add(step)]
}

#[inline(never)]
fn products_side_by_side_from<F: Field>(turns: u32, mut row: [F; 4], factors: [F; 4]) -> [F; 4] {
    for _ in 0..turns {
        for (x, factor) in row.iter_mut().zip(factors) {
            *x = x.mul(factor);
        }
    }
    row
}

#[inline(never)]
fn squares_from<F: Field>(turns: u32, mut x: F) -> F {
    for _ in 0..turns {
        x = x.square();
    }
    x
}

#[inline(never)]
fn inverses_from<F: Field>(turns: u32, mut x: F, step: F) -> F {
    for _ in 0..turns {
        x = x.inverse().map_or(step, |y| y.add(step));
    }
    x
}

#[inline(never)]
fn encodings_from<F: Coordinates>(turns: u32, mut x: F, step: F, out: &mut [u8], size: u8) -> F {
    let size = usize::from(size);
    for turn in 0..turns as usize {
        let from = size * (turn % 16);
        x = encode(x, &mut out[from..from + size]).map_or(F::zero(), |()| x.add(step));
    }
    x
}

#[inline(never)]
fn decodings_from<F: Coordinates>(turns: u32, mut x: F, bytes: &[u8], size: u8) -> F {
    let size = usize::from(size);
    for _ in 0..turns {
        let from = size * usize::from(x.coefficient(1) % 16);
        x = decode(Part::Call, &bytes[from..from + size]).map_or(F::one(), |y| x.add(y));
    }
    x
}

#[inline(never)]
fn tags_from<F: Coordinates>(turns: u32, key: F, mut x: F, body: &mut [u8]) -> F {
    for _ in 0..turns {
        x = make_tag(key, x, body).unwrap_or(F::one());
        body[1] = x.coefficient(0) as u8;
    }
    x
}

fn products_of<F: Coordinates>(turns: u32, a: &[u16], b: &[u16], out: &mut [u16]) {
    show(products_from::<F>(turns, value(a), value(b)), out);
}

fn products_side_by_side_of<F: Coordinates>(turns: u32, a: &[u16], b: &[u16], out: &mut [u16]) {
    let row = apart(value(a), value(b));
    let [first, second, third, fourth]: [F; 4] = products_side_by_side_from(turns, row, apart(value(b), value(a)));
    show(first.add(second).add(third).add(fourth), out);
}

fn squares_of<F: Coordinates>(turns: u32, a: &[u16], out: &mut [u16]) {
    show(squares_from::<F>(turns, value(a)), out);
}

fn inverses_of<F: Coordinates>(turns: u32, a: &[u16], b: &[u16], out: &mut [u16]) {
    show(inverses_from::<F>(turns, value(a), value(b)), out);
}

fn encodings_of<F: Coordinates>(turns: u32, a: &[u16], b: &[u16], out: &mut [u8], size: u8) {
    let middle = encodings_from::<F>(turns / 2, value(a), value(b), out, size);
    encodings_from::<F>(turns - turns / 2, middle, value(b), out, size);
}

fn decodings_of<F: Coordinates>(turns: u32, bytes: &[u8], size: u8, out: &mut [u16]) {
    show(decodings_from(turns, F::zero(), bytes, size), out);
}

fn tags_of<F: Coordinates>(turns: u32, key: &[u16], pad: &[u16], body: &mut [u8], out: &mut [u16]) {
    show(tags_from::<F>(turns, value(key), value(pad), body), out);
}

pub fn products(form: u8, turns: u32, a: &[u16], b: &[u16], out: &mut [u16]) {
    match form {
        0 => products_of::<Polynomial<P4093>>(turns, a, b, out),
        1 => products_of::<Polynomial<P1021>>(turns, a, b, out),
        2 => products_of::<LongTower<P4093>>(turns, a, b, out),
        3 => products_of::<LongTower<P1021>>(turns, a, b, out),
        4 => products_of::<Residue<P4093>>(turns, a, b, out),
        5 => products_of::<ShortTower<P4093>>(turns, a, b, out),
        _ => products_of::<Quadratic<ShortTower<P4093>>>(turns, a, b, out),
    }
}

pub fn products_side_by_side(form: u8, turns: u32, a: &[u16], b: &[u16], out: &mut [u16]) {
    match form {
        0 => products_side_by_side_of::<Polynomial<P4093>>(turns, a, b, out),
        1 => products_side_by_side_of::<Polynomial<P1021>>(turns, a, b, out),
        2 => products_side_by_side_of::<LongTower<P4093>>(turns, a, b, out),
        _ => products_side_by_side_of::<LongTower<P1021>>(turns, a, b, out),
    }
}

pub fn squares(form: u8, turns: u32, a: &[u16], out: &mut [u16]) {
    match form {
        0 => squares_of::<Polynomial<P4093>>(turns, a, out),
        1 => squares_of::<Polynomial<P1021>>(turns, a, out),
        2 => squares_of::<LongTower<P4093>>(turns, a, out),
        _ => squares_of::<LongTower<P1021>>(turns, a, out),
    }
}

pub fn inverses(form: u8, turns: u32, a: &[u16], b: &[u16], out: &mut [u16]) {
    match form {
        0 => inverses_of::<Polynomial<P4093>>(turns, a, b, out),
        1 => inverses_of::<Polynomial<P1021>>(turns, a, b, out),
        2 => inverses_of::<LongTower<P4093>>(turns, a, b, out),
        3 => inverses_of::<LongTower<P1021>>(turns, a, b, out),
        4 => inverses_of::<Residue<P4093>>(turns, a, b, out),
        5 => inverses_of::<ShortTower<P4093>>(turns, a, b, out),
        _ => inverses_of::<Quadratic<ShortTower<P4093>>>(turns, a, b, out),
    }
}

pub fn encodings(form: u8, turns: u32, a: &[u16], b: &[u16], out: &mut [u8], size: u8) {
    match form {
        0 => encodings_of::<Polynomial<P4093>>(turns, a, b, out, size),
        1 => encodings_of::<Polynomial<P1021>>(turns, a, b, out, size),
        2 => encodings_of::<LongTower<P4093>>(turns, a, b, out, size),
        _ => encodings_of::<LongTower<P1021>>(turns, a, b, out, size),
    }
}

pub fn decodings(form: u8, turns: u32, bytes: &[u8], size: u8, out: &mut [u16]) {
    match form {
        0 => decodings_of::<Polynomial<P4093>>(turns, bytes, size, out),
        1 => decodings_of::<Polynomial<P1021>>(turns, bytes, size, out),
        2 => decodings_of::<LongTower<P4093>>(turns, bytes, size, out),
        _ => decodings_of::<LongTower<P1021>>(turns, bytes, size, out),
    }
}

pub fn tags(form: u8, turns: u32, key: &[u16], pad: &[u16], body: &mut [u8], out: &mut [u16]) {
    match form {
        0 => tags_of::<Polynomial<P4093>>(turns, key, pad, body, out),
        2 => tags_of::<LongTower<P4093>>(turns, key, pad, body, out),
        _ => tags_of::<ShortTower<P4093>>(turns, key, pad, body, out),
    }
}

pub fn checks(turns: u32, key: &[u8], pads: &[u8], tickets: &[u8], size: u16) -> u32 {
    let mut passed = 0;
    for _ in 0..turns {
        let Ok(mut validator) = Validator::<Polynomial<P4093>>::new(key) else {
            return 0;
        };
        for ticket in tickets.chunks_exact(usize::from(size)) {
            passed += u32::from(validator.check(ticket, pads).is_ok());
        }
    }
    passed
}

/// A number that depends on what each line says.
fn summed(lines: &[Line]) -> u64 {
    lines.iter().fold(0, |sum: u64, line| {
        let (number, more) = match *line {
            Line::Pass(number, route) => (number, u64::from(route)),
            Line::Refused(number, fault) => (number, fault.refusal as u64),
            Line::Cancelled(number) => (number, 100),
            Line::Rides(number, count) => (number, u64::from(count)),
            Line::End(number) => (number, 200),
        };
        sum.wrapping_mul(31).wrapping_add(number as u64).wrapping_add(more)
    })
}

pub fn shifts(turns: u32, input: &[u8]) -> u64 {
    (0..turns).fold(0, |sum, _| sum.wrapping_add(summed(&play::<Polynomial<P4093>>(input))))
}
