//! Cases of whole shifts: good ones, damaged ones and hostile ones.
//!
//! Most are made from a scene, which is a key, pads, and tickets that an issuer has made; records
//! about them are put on a tape, and then something may be spoiled.

use crate::case::Case;
use crate::coding;
use crate::fault::Part;
use crate::field::{Field, Value};
use crate::issuer::{Issuer, read_key};
use crate::random::Random;
use crate::shift::{FORM, LONGEST, SHORTEST};
use crate::tag::{self, Body, LONGEST_TEXT, NUMBERS, ROUTES, two_bytes};
use crate::tape::Record;
use crate::values;

/// How many kinds of shift take turns.
const KINDS: usize = 20;

/// The whole shift of a turn.
pub fn shift(random: &mut Random, turn: usize) -> Case {
    let input = match turn % KINDS {
        0..=6 => Scene::new(random).worked(random).input(),
        7 | 8 => damaged_pads(random),
        9 | 10 => torn(random),
        11 => bad_record(random),
        12 => bad_key(random),
        13 => wrong_count(random),
        14 | 15 => edited(random),
        16 => any_bytes(random),
        17 => any_records(random),
        18 => cut_short(random),
        _ if random.once_in(40) => full(random),
        _ => crowded(random),
    };
    Case::Shift { input }
}

/// What a shift is made of.
#[derive(Clone, Debug)]
struct Scene {
    /// The encoded key.
    key: Vec<u8>,
    /// The count of pads that the input says, whatever pads there are.
    count: usize,
    /// The encoded pads, one after the other.
    pads: Vec<u8>,
    /// Tickets that were sealed, at least one.
    tickets: Vec<Vec<u8>>,
    /// The records of the tape.
    records: Vec<Vec<u8>>,
}

fn field() -> Field {
    FORM.field()
}

impl Scene {
    /// A key, a few pads and tickets, and no record.
    fn new(random: &mut Random) -> Self {
        let count = match random.below(40) {
            0 => random.within(1..=200),
            1..=8 => random.within(1..=20),
            _ => random.within(1..=5),
        };
        Self::with(random, count, 6)
    }

    /// A key, so many pads and at most so many tickets, and no record.
    fn with(random: &mut Random, count: usize, tickets: usize) -> Self {
        let key = loop {
            let key = values::encoding(random, field());
            if read_key(field(), &key).is_ok() {
                break key;
            }
        };
        let pads: Vec<u8> = (0..count)
            .flat_map(|_| values::encoding(random, field()))
            .collect();
        let mut issuer = Issuer::new(field(), &key).expect("a good key");
        let mut scene = Self {
            key,
            count,
            pads,
            tickets: vec![],
            records: vec![],
        };
        for _ in 0..tickets.min(count) {
            let number = issuer.draw(&scene.pads).expect("a number is left");
            let (route, text) = (route(random), text(random));
            let mut paper = [0; 500];
            let length = issuer
                .seal(number, route, &text, &scene.pads, &mut paper)
                .expect("nothing is wrong");
            scene.tickets.push(paper[..length].to_vec());
        }
        scene
    }

    /// The same with some records on the tape.
    fn worked(mut self, random: &mut Random) -> Self {
        for _ in 0..random.below(24) {
            let record = self.record(random);
            self.records.push(record);
        }
        self
    }

    /// The input of the program.
    fn input(&self) -> Vec<u8> {
        let count = two_bytes(self.count);
        let tape = self.records.concat();
        [&self.key[..], &count, &self.pads, &tape].concat()
    }

    /// A record that has to do with the tickets of the scene.
    fn record(&self, random: &mut Random) -> Vec<u8> {
        match random.below(20) {
            0..=8 => Record::Check(self.genuine(random)).bytes(),
            9..=12 => Record::Check(&self.forged(random)).bytes(),
            13 => Record::Check(&self.twin(random)).bytes(),
            14..=16 => Record::Cancel(self.number(random)).bytes(),
            _ => Record::Report(route(random)).bytes(),
        }
    }

    /// A number, mostly one of a ticket.
    fn number(&self, random: &mut Random) -> usize {
        match random.below(12) {
            0 => random.below(NUMBERS),
            1 => NUMBERS - 1,
            2 => self.count.min(NUMBERS - 1),
            _ => random.below(self.tickets.len()),
        }
    }

    /// A ticket that was sealed.
    fn genuine(&self, random: &mut Random) -> &[u8] {
        &self.tickets[random.below(self.tickets.len())]
    }

    /// The ticket of a body under a key and a pad.
    fn sealed(key: Value, pad: Value, body: &[u8]) -> Vec<u8> {
        let tag = tag::tag(key, pad, body).expect("a body of a good length");
        [body, &coding::encode(&tag)].concat()
    }

    /// A right ticket that no issuer has made: of any number that has a pad, for any route.
    fn twin(&self, random: &mut Random) -> Vec<u8> {
        let number = random.below(self.pads.len() / field().encoded_size());
        let body = Body {
            number,
            route: route(random),
            text: &text(random),
        };
        let body = body.bytes().expect("a good body");
        let key = read_key(field(), &self.key).expect("a good key");
        match tag::read_pad(field(), &self.pads, number) {
            Ok(pad) => Self::sealed(key, pad, &body),
            // The pad is damaged: no tag is right.
            Err(_) => [body, vec![0; field().encoded_size()]].concat(),
        }
    }

    /// A ticket with something wrong.
    fn forged(&self, random: &mut Random) -> Vec<u8> {
        let size = field().encoded_size();
        let mut ticket = self.genuine(random).to_vec();
        let body_length = ticket.len() - size;
        let any_value = |random: &mut Random| {
            coding::decode(field(), Part::Call, &values::encoding(random, field()))
                .expect("an encoding")
        };
        match random.below(12) {
            // One bit anywhere.
            0 | 1 => {
                let place = random.below(ticket.len());
                ticket[place] ^= 1 << random.below(8);
            }
            // Another route under the same tag.
            2 => ticket[1] ^= small_byte(random.within(1..=63)),
            // Another number under the same tag.
            3 => {
                let head = Body {
                    number: self.number(random),
                    route: 5,
                    text: &[],
                };
                let head = head.bytes().expect("a good body");
                ticket[..2].copy_from_slice(&head);
            }
            // A tag that cannot be decoded.
            4 | 5 => {
                let mut tag = values::damaged_encoding(random, field());
                tag.resize(size, 0xFF);
                ticket.truncate(body_length);
                ticket.extend(tag);
            }
            // Made with another key, or with another pad.
            6 => {
                let (key, pad) = (any_value(random), any_value(random));
                ticket = Self::sealed(key, pad, &ticket[..body_length]);
            }
            7 => {
                let key = read_key(field(), &self.key).expect("a good key");
                ticket = Self::sealed(key, any_value(random), &ticket[..body_length]);
            }
            // A byte of 00 more or less at the end of the body.
            8 => ticket.insert(body_length, 0),
            9 => {
                ticket.remove(body_length - 1);
            }
            // Too short or too long, or just not.
            10 => ticket.truncate(random.within(0..=size + 2)),
            _ => {
                let length = random.within(size + 438..=size + 444);
                ticket.resize(length, random.byte());
            }
        }
        ticket
    }
}

/// A route, mostly one of a few, so that rides add up.
fn route(random: &mut Random) -> usize {
    if random.once_in(4) {
        random.below(ROUTES)
    } else {
        *random.choice(&[0, 5, 63])
    }
}

/// A text, mostly a short one.
fn text(random: &mut Random) -> Vec<u8> {
    let length = match random.below(30) {
        0 => LONGEST_TEXT,
        1 | 2 => random.within(0..=LONGEST_TEXT),
        _ => random.within(0..=24),
    };
    random.bytes(length)
}

fn small_byte(number: usize) -> u8 {
    u8::try_from(number).expect("a byte")
}

/// Some pads cannot be decoded; the tickets were made before.
fn damaged_pads(random: &mut Random) -> Vec<u8> {
    let mut scene = Scene::new(random);
    let size = field().encoded_size();
    for _ in 0..random.within(1..=3) {
        let mut pad = values::damaged_encoding(random, field());
        pad.resize(size, 0xFF);
        let start = size * random.below(scene.count);
        scene.pads[start..start + size].copy_from_slice(&pad);
    }
    scene.worked(random).input()
}

/// The tape ends too early; now and then the pads do.
fn torn(random: &mut Random) -> Vec<u8> {
    let scene = Scene::new(random).worked(random);
    let mut input = scene.input();
    let tape = scene.records.concat().len();
    let first = if random.once_in(10) {
        0
    } else {
        input.len() - tape
    };
    input.truncate(random.within(first..=input.len()));
    input
}

/// One record of no kind, or with a bit that has no use, and records behind it.
fn bad_record(random: &mut Random) -> Vec<u8> {
    let mut scene = Scene::new(random).worked(random);
    let head = match random.below(5) {
        0 => random.below(0x4000),
        1 => 0x8000 + random.within(1024..=0x3FFF),
        2 => 0xC000 + random.within(64..=0x3FFF),
        3 => *random.choice(&[0x0000, 0x3FFF, 0x8400, 0xBFFF, 0xC040, 0xFFFF]),
        _ => 0x4000 + random.within(1000..=0x3FFF),
    };
    let place = random.within(0..=scene.records.len());
    scene.records.insert(place, two_bytes(head).to_vec());
    scene.input()
}

/// The key is zero or cannot be decoded; sometimes the count is wrong as well.
fn bad_key(random: &mut Random) -> Vec<u8> {
    let mut scene = Scene::new(random).worked(random);
    let size = field().encoded_size();
    scene.key = if random.once_in(3) {
        vec![0; size]
    } else {
        values::damaged_encoding(random, field())
    };
    scene.key.resize(size, 0xFF);
    if random.once_in(6) {
        scene.count = random.below(0x1_0000);
    }
    scene.input()
}

/// The count of pads is another: the tape then starts inside the pads, or the pads go on in it.
fn wrong_count(random: &mut Random) -> Vec<u8> {
    let mut scene = Scene::new(random).worked(random);
    scene.count = match random.below(6) {
        0 => 0,
        1 => *random.choice(&[1024, 1025, 0xFFFF]),
        2 => random.below(0x1_0000),
        3 => scene.count - 1,
        _ => scene.count + random.within(1..=3),
    };
    scene.input()
}

/// A good input in which a few bytes were changed, taken out or put in.
fn edited(random: &mut Random) -> Vec<u8> {
    let mut input = Scene::new(random).worked(random).input();
    for _ in 0..random.within(1..=4) {
        let place = random.below(input.len());
        match random.below(5) {
            0 => input[place] = random.byte(),
            1 => input[place] ^= 1 << random.below(8),
            2 => {
                input.remove(place);
            }
            3 => input.insert(place, random.byte()),
            _ => {
                let length = random.below(40).min(input.len() - place);
                let piece = input[place..place + length].to_vec();
                let behind = random.within(0..=input.len());
                input.splice(behind..behind, piece);
            }
        }
    }
    input
}

/// Any bytes at all; half of them at least say that there are few pads.
fn any_bytes(random: &mut Random) -> Vec<u8> {
    let length = random.within(0..=300);
    let mut input = random.bytes(length);
    if input.len() >= SHORTEST && random.once_in(2) {
        input[12..14].copy_from_slice(&two_bytes(random.within(1..=4)));
    }
    input
}

/// A good start, then records with any bytes in them.
fn any_records(random: &mut Random) -> Vec<u8> {
    let mut scene = Scene::new(random);
    for _ in 0..random.below(40) {
        let record = match random.below(8) {
            0..=3 => {
                let length = random.within(0..=60);
                let mut ticket = random.bytes(length);
                // A low number, so that the pads are looked at.
                if let Some(first) = ticket.first_mut() {
                    *first = 0;
                }
                Record::Check(&ticket).bytes()
            }
            4 | 5 => Record::Cancel(random.below(NUMBERS)).bytes(),
            6 => Record::Report(random.below(ROUTES)).bytes(),
            _ if random.once_in(8) => random.bytes(2),
            _ => scene.record(random),
        };
        scene.records.push(record);
    }
    scene.input()
}

/// The first bytes of a good input, or too few of them to be one.
fn cut_short(random: &mut Random) -> Vec<u8> {
    let mut input = Scene::new(random).worked(random).input();
    let length = if random.once_in(2) {
        random.within(0..=SHORTEST)
    } else {
        random.within(SHORTEST..=60)
    };
    input.truncate(length);
    input
}

/// Very few numbers, and the same things over and over.
fn crowded(random: &mut Random) -> Vec<u8> {
    let count = random.within(1..=3);
    let mut scene = Scene::with(random, count, 2);
    for _ in 0..random.within(10..=80) {
        let record = match random.below(10) {
            0..=3 => Record::Check(scene.genuine(random)).bytes(),
            4 => Record::Check(&scene.twin(random)).bytes(),
            5 => Record::Check(&scene.forged(random)).bytes(),
            6 => Record::Cancel(random.below(4)).bytes(),
            _ => Record::Report(route(random)).bytes(),
        };
        scene.records.push(record);
    }
    scene.input()
}

/// An input about as long as the longest, with up to all numbers in use.
fn full(random: &mut Random) -> Vec<u8> {
    let count = *random.choice(&[1, 64, NUMBERS - 1, NUMBERS]);
    let tickets = *random.choice(&[1, 64, NUMBERS]);
    let mut scene = Scene::with(random, count, tickets);
    let length = match random.below(4) {
        0 => LONGEST - random.below(3),
        1 => LONGEST + random.within(1..=3),
        2 => random.within(LONGEST..=70_000),
        _ => random.within(LONGEST / 2..=LONGEST),
    };
    // Few records that are long, or many that are short.
    let short = random.once_in(2);
    let mut left = length.saturating_sub(scene.input().len());
    while left > 1 {
        let mut record = match random.below(4) {
            0 if short => Record::Cancel(random.below(NUMBERS)).bytes(),
            1 if short => Record::Report(route(random)).bytes(),
            2 if short => Record::Check(&[]).bytes(),
            _ => scene.record(random),
        };
        if record.len() > left {
            // A ticket of what is left over, and the tape is exactly full.
            record = Record::Check(&random.bytes(left - 2)).bytes();
        }
        left -= record.len();
        scene.records.push(record);
    }
    if left == 1 {
        scene.records.push(vec![0x40]);
    }
    scene.input()
}
