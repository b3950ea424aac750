//! The engine's static library, asked through its C interface.
//!
//! This is the only file that knows the interface, which `include/door.h` declares:
//!
//! - forms have the numbers of [`Form`], coefficients are by power of X in every form;
//! - a row is handed over as a pointer and a count of items;
//! - a call answers 0 if it is done, else a packed fault ([`Fault::packed`]): the refusal in the
//!   lowest byte, the part in the next, the place above; a refused call writes nothing;
//! - arguments are tested in order, as [`Opinion`] says of each call;
//! - `wz_shift` answers how many bytes its text has;
//! - `u64::MAX` is no fault: no form has the number, or memory was wanting.

use crate::fault::Fault;
use crate::field::Form;
use crate::opinion::Opinion;

unsafe extern "C" {
    fn wz_product(
        form: u8,
        a: *const u16,
        a_len: usize,
        b: *const u16,
        b_len: usize,
        out: *mut u16,
        out_len: usize,
    ) -> u64;

    fn wz_inverse(form: u8, a: *const u16, a_len: usize, out: *mut u16, out_len: usize) -> u64;

    fn wz_encode(form: u8, a: *const u16, a_len: usize, out: *mut u8, out_len: usize) -> u64;

    fn wz_decode(
        form: u8,
        bytes: *const u8,
        bytes_len: usize,
        out: *mut u16,
        out_len: usize,
    ) -> u64;

    fn wz_tag(
        form: u8,
        key: *const u8,
        key_len: usize,
        pad: *const u8,
        pad_len: usize,
        body: *const u8,
        body_len: usize,
        out: *mut u8,
        out_len: usize,
    ) -> u64;

    fn wz_shift(input: *const u8, input_len: usize, out: *mut u8, out_len: usize) -> u64;
}

/// The opinion of the engine.
#[derive(Clone, Copy, Debug)]
pub struct Engine;

// SAFETY of all calls below: each pointer comes from a slice that lives through the call, and goes
// with that slice's length; what is written to is borrowed by this call alone. The library is
// trusted to keep to the lengths; the driver lends memory with a guard behind it and looks.
impl Opinion for Engine {
    fn product(&self, form: Form, a: &[u16], b: &[u16], out: &mut [u16]) -> Result<(), Fault> {
        Fault::from_packed(unsafe {
            wz_product(
                form as u8,
                a.as_ptr(),
                a.len(),
                b.as_ptr(),
                b.len(),
                out.as_mut_ptr(),
                out.len(),
            )
        })
    }

    fn inverse(&self, form: Form, a: &[u16], out: &mut [u16]) -> Result<(), Fault> {
        Fault::from_packed(unsafe {
            wz_inverse(form as u8, a.as_ptr(), a.len(), out.as_mut_ptr(), out.len())
        })
    }

    fn encode(&self, form: Form, a: &[u16], out: &mut [u8]) -> Result<(), Fault> {
        Fault::from_packed(unsafe {
            wz_encode(form as u8, a.as_ptr(), a.len(), out.as_mut_ptr(), out.len())
        })
    }

    fn decode(&self, form: Form, bytes: &[u8], out: &mut [u16]) -> Result<(), Fault> {
        Fault::from_packed(unsafe {
            wz_decode(
                form as u8,
                bytes.as_ptr(),
                bytes.len(),
                out.as_mut_ptr(),
                out.len(),
            )
        })
    }

    fn tag(
        &self,
        form: Form,
        key: &[u8],
        pad: &[u8],
        body: &[u8],
        out: &mut [u8],
    ) -> Result<(), Fault> {
        Fault::from_packed(unsafe {
            wz_tag(
                form as u8,
                key.as_ptr(),
                key.len(),
                pad.as_ptr(),
                pad.len(),
                body.as_ptr(),
                body.len(),
                out.as_mut_ptr(),
                out.len(),
            )
        })
    }

    fn shift(&self, input: &[u8], out: &mut [u8]) -> usize {
        let length = unsafe { wz_shift(input.as_ptr(), input.len(), out.as_mut_ptr(), out.len()) };
        usize::try_from(length).expect("64 bits")
    }
}

#[cfg(test)]
mod tests {
    use super::*;

    #[test]
    fn other_numbers_name_no_form() {
        let a = [3, 5];
        for form in [6, 7, 128, 255] {
            let mut out = [7; 2];
            let answer =
                unsafe { wz_product(form, a.as_ptr(), 2, a.as_ptr(), 2, out.as_mut_ptr(), 2) };
            assert_eq!(answer, u64::MAX);
            assert_eq!(out, [7; 2]);
        }
    }

    #[test]
    fn a_text_is_written_only_if_it_fits() {
        let text = b"0 refused 3 0 0\nend 1\n";
        for room in [0, 1, text.len() - 1, text.len(), text.len() + 1] {
            let mut out = vec![7; room];
            assert_eq!(Engine.shift(&[], &mut out), text.len());
            let written = if room < text.len() { 0 } else { text.len() };
            assert_eq!(out[..written], text[..written]);
            assert!(out[written..].iter().all(|byte| *byte == 7));
        }
    }
}
