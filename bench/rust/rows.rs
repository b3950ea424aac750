//! What is measured: each row is one operation, done by the engine and by the plain Rust.

use crate::plain::field::Coordinates;
use crate::plain::polynomial::Polynomial;
use crate::plain::prime::{P1021, P4093};
use crate::{engine, inputs, loops};

/// Does that many turns and gives the last result, from which the next call goes on: so no call repeats another one,
/// and no side can learn its inputs by heart.
pub type Work = Box<dyn FnMut(u32) -> Vec<u8>>;

pub struct Row {
    pub name: String,
    /// How many operations are done in one turn.
    pub operations: u32,
    pub engine: Work,
    pub plain: Work,
}

/// A field by the number of the kernels.
#[derive(Clone, Copy)]
struct Form {
    number: u8,
    name: &'static str,
    modulus: u16,
    count: usize,
    encoded: u8,
}

const fn form(number: u8, name: &'static str, modulus: u16, count: usize, encoded: u8) -> Form {
    Form { number, name, modulus, count, encoded }
}

const MAIN: [Form; 4] = [
    form(0, "poly-4093", 4093, 8, 12),
    form(1, "poly-1021", 1021, 8, 10),
    form(2, "long-4093", 4093, 8, 12),
    form(3, "long-1021", 1021, 8, 10),
];
const HEIGHTS: [Form; 3] = [
    form(4, "height0-4093", 4093, 1, 0),
    form(5, "short-4093", 4093, 2, 3),
    form(6, "height2-4093", 4093, 4, 0),
];
/// The lengths at which the growth of a tag's cost is measured.
const LENGTHS: [usize; 13] = [2, 22, 44, 64, 88, 132, 176, 220, 264, 308, 352, 396, 440];
/// The bytes of the bodies that the validator checks.
const CHECKED: usize = 64;

impl Form {
    fn inputs(self) -> (Vec<u16>, Vec<u16>) {
        (inputs::first(self.modulus, self.count), inputs::second(self.modulus, self.count))
    }

    fn encodings(self) -> Vec<u8> {
        let size = usize::from(self.encoded);
        if self.modulus == P4093_NUMBER {
            inputs::encodings::<Polynomial<P4093>>(size)
        } else {
            inputs::encodings::<Polynomial<P1021>>(size)
        }
    }
}

const P4093_NUMBER: u16 = <Polynomial<P4093> as Coordinates>::MODULUS;

fn bytes_of(numbers: &[u16]) -> Vec<u8> {
    numbers.iter().flat_map(|number| number.to_be_bytes()).collect()
}

type OfOne = fn(u8, u32, &[u16], &mut [u16]);
type OfTwo = fn(u8, u32, &[u16], &[u16], &mut [u16]);
type OfBody = fn(u8, u32, &[u16], &[u16], &mut [u8], &mut [u16]);

fn of_one(form: Form, run: OfOne) -> Work {
    let (mut a, _) = form.inputs();
    Box::new(move |turns| {
        let mut out = vec![0; form.count];
        run(form.number, turns, &a, &mut out);
        a.copy_from_slice(&out);
        bytes_of(&out)
    })
}

fn of_two(form: Form, run: OfTwo) -> Work {
    let (mut a, b) = form.inputs();
    Box::new(move |turns| {
        let mut out = vec![0; form.count];
        run(form.number, turns, &a, &b, &mut out);
        a.copy_from_slice(&out);
        bytes_of(&out)
    })
}

fn encoding(form: Form, run: fn(u8, u32, &[u16], &[u16], &mut [u8], u8)) -> Work {
    let (a, b) = form.inputs();
    Box::new(move |turns| {
        let mut out = vec![0; 16 * usize::from(form.encoded)];
        run(form.number, turns, &a, &b, &mut out, form.encoded);
        out
    })
}

fn decoding(form: Form, run: fn(u8, u32, &[u8], u8, &mut [u16])) -> Work {
    let bytes = form.encodings();
    Box::new(move |turns| {
        let mut out = vec![0; form.count];
        run(form.number, turns, &bytes, form.encoded, &mut out);
        bytes_of(&out)
    })
}

fn tag(form: Form, length: usize, run: OfBody) -> Work {
    let (key, mut pad) = form.inputs();
    let mut body = inputs::body(length);
    Box::new(move |turns| {
        let mut out = vec![0; form.count];
        run(form.number, turns, &key, &pad, &mut body, &mut out);
        pad.copy_from_slice(&out);
        bytes_of(&out)
    })
}

fn check(run: fn(u32, &[u8], &[u8], &[u8], u16) -> u32) -> Work {
    let (key, pads, tickets) = (inputs::key(), inputs::pads(), inputs::tickets(CHECKED));
    Box::new(move |turns| {
        let passed = run(turns, &key, &pads, &tickets, CHECKED as u16 + 12);
        assert_eq!(passed, 1024 * turns, "not every ticket passed");
        passed.to_be_bytes().to_vec()
    })
}

fn shift(run: fn(u32, &[u8]) -> u64) -> Work {
    let input = inputs::shift();
    assert_eq!(input.len(), crate::plain::shift::LONGEST_INPUT);
    Box::new(move |turns| run(turns, &input).to_be_bytes().to_vec())
}

fn row(name: String, operations: u32, engine: Work, plain: Work) -> Row {
    Row { name, operations, engine, plain }
}

fn of_form(form: Form) -> Vec<Row> {
    let name = |what: &str| format!("{what} {}", form.name);
    vec![
        row(name("product"), 1, of_two(form, engine::products), of_two(form, loops::products)),
        row(
            name("product-side-by-side"),
            4,
            of_two(form, engine::products_side_by_side),
            of_two(form, loops::products_side_by_side),
        ),
        row(name("square"), 1, of_one(form, engine::squares), of_one(form, loops::squares)),
        row(name("inverse"), 1, of_two(form, engine::inverses), of_two(form, loops::inverses)),
        row(name("encode"), 1, encoding(form, engine::encodings), encoding(form, loops::encodings)),
        row(name("decode"), 1, decoding(form, engine::decodings), decoding(form, loops::decodings)),
    ]
}

fn of_height(form: Form) -> Vec<Row> {
    let name = |what: &str| format!("{what} {}", form.name);
    vec![
        row(name("product"), 1, of_two(form, engine::products), of_two(form, loops::products)),
        row(name("inverse"), 1, of_two(form, engine::inverses), of_two(form, loops::inverses)),
    ]
}

fn of_length(form: Form, length: usize) -> Row {
    row(
        format!("tag-{length} {}", form.name),
        1,
        tag(form, length, engine::tags),
        tag(form, length, loops::tags),
    )
}

/// All rows.
pub fn all() -> Vec<Row> {
    let mut rows: Vec<Row> = MAIN.into_iter().flat_map(of_form).collect();
    rows.extend(HEIGHTS.into_iter().flat_map(of_height));
    for form in [MAIN[0], MAIN[2], HEIGHTS[1]] {
        rows.extend(LENGTHS.map(|length| of_length(form, length)));
    }
    rows.push(row("check-64 poly-4093".into(), 1024, check(engine::checks), check(loops::checks)));
    rows.push(row("shift poly-4093".into(), 1, shift(engine::shifts), shift(loops::shifts)));
    rows
}
