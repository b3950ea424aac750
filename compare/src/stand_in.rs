//! Stands in for the engine's library in tests: the same names, answered by this folder's opinion.
//! So the adapter to the C interface is tried before there is a library.

use crate::fault::Fault;
use crate::field::Form;
use crate::opinion::{Opinion, Own};
use crate::shift::shift;
use std::slice::{from_raw_parts, from_raw_parts_mut};

/// The code of an answer in the form with a number.
fn in_form(number: u8, call: impl FnOnce(Form) -> Result<(), Fault>) -> u64 {
    match Form::ALL.get(usize::from(number)) {
        Some(form) => call(*form).map_or_else(|fault| fault.packed(), |()| 0),
        None => u64::MAX,
    }
}

#[unsafe(no_mangle)]
unsafe extern "C" fn wz_product(
    number: u8,
    a: *const u16,
    a_len: usize,
    b: *const u16,
    b_len: usize,
    out: *mut u16,
    out_len: usize,
) -> u64 {
    let (a, b) = unsafe { (from_raw_parts(a, a_len), from_raw_parts(b, b_len)) };
    let out = unsafe { from_raw_parts_mut(out, out_len) };
    in_form(number, |form| Own.product(form, a, b, out))
}

#[unsafe(no_mangle)]
unsafe extern "C" fn wz_inverse(
    number: u8,
    a: *const u16,
    a_len: usize,
    out: *mut u16,
    out_len: usize,
) -> u64 {
    let (a, out) = unsafe { (from_raw_parts(a, a_len), from_raw_parts_mut(out, out_len)) };
    in_form(number, |form| Own.inverse(form, a, out))
}

#[unsafe(no_mangle)]
unsafe extern "C" fn wz_encode(
    number: u8,
    a: *const u16,
    a_len: usize,
    out: *mut u8,
    out_len: usize,
) -> u64 {
    let (a, out) = unsafe { (from_raw_parts(a, a_len), from_raw_parts_mut(out, out_len)) };
    in_form(number, |form| Own.encode(form, a, out))
}

#[unsafe(no_mangle)]
unsafe extern "C" fn wz_decode(
    number: u8,
    bytes: *const u8,
    bytes_len: usize,
    out: *mut u16,
    out_len: usize,
) -> u64 {
    let bytes = unsafe { from_raw_parts(bytes, bytes_len) };
    let out = unsafe { from_raw_parts_mut(out, out_len) };
    in_form(number, |form| Own.decode(form, bytes, out))
}

#[unsafe(no_mangle)]
unsafe extern "C" fn wz_tag(
    number: u8,
    key: *const u8,
    key_len: usize,
    pad: *const u8,
    pad_len: usize,
    body: *const u8,
    body_len: usize,
    out: *mut u8,
    out_len: usize,
) -> u64 {
    let (key, pad) = unsafe { (from_raw_parts(key, key_len), from_raw_parts(pad, pad_len)) };
    let body = unsafe { from_raw_parts(body, body_len) };
    let out = unsafe { from_raw_parts_mut(out, out_len) };
    in_form(number, |form| Own.tag(form, key, pad, body, out))
}

#[unsafe(no_mangle)]
unsafe extern "C" fn wz_shift(
    input: *const u8,
    input_len: usize,
    out: *mut u8,
    out_len: usize,
) -> u64 {
    let input = unsafe { from_raw_parts(input, input_len) };
    let out = unsafe { from_raw_parts_mut(out, out_len) };
    let text = shift(input);
    if let Some(front) = out.get_mut(..text.len()) {
        front.copy_from_slice(text.as_bytes());
    }
    text.len() as u64
}
