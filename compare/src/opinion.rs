//! What can be asked of both sides of the comparison, and the answers of this side.

use crate::coding;
use crate::fault::{Fault, Part, Refusal};
use crate::field::Form;
use crate::shift::shift;
use crate::tag;

/// Someone who can be asked. Coefficients are by power of X in every form, power 0 first.
///
/// Answers are written into what the caller lends, and a refusal writes nothing. Arguments are
/// tested in order; the test of what is lent comes last.
pub trait Opinion {
    /// The product of two values.
    ///
    /// # Errors
    ///
    /// Those of building the first value, then the second: `WrongSize`, `CoefficientOutOfRange`.
    fn product(&self, form: Form, a: &[u16], b: &[u16], out: &mut [u16]) -> Result<(), Fault>;

    /// The inverse of a value.
    ///
    /// # Errors
    ///
    /// Those of building the value, then `ZeroHasNoInverse`.
    fn inverse(&self, form: Form, a: &[u16], out: &mut [u16]) -> Result<(), Fault>;

    /// The encoding of a value.
    ///
    /// # Errors
    ///
    /// Those of building the value, then `WrongSize` if the bytes lent are not those of an encoding.
    fn encode(&self, form: Form, a: &[u16], out: &mut [u8]) -> Result<(), Fault>;

    /// The value of an encoding.
    ///
    /// # Errors
    ///
    /// `WrongSize`, `CoefficientOutOfRange`, `PaddingNotZero`, of the part call.
    fn decode(&self, form: Form, bytes: &[u8], out: &mut [u16]) -> Result<(), Fault>;

    /// The encoded tag of a body under an encoded key and an encoded pad.
    ///
    /// # Errors
    ///
    /// Those of decoding the key, then the pad, then `WrongLength` for the body.
    fn tag(
        &self,
        form: Form,
        key: &[u8],
        pad: &[u8],
        body: &[u8],
        out: &mut [u8],
    ) -> Result<(), Fault>;

    /// All lines of a shift, and how many bytes they are. What is lent is long enough.
    fn shift(&self, input: &[u8], out: &mut [u8]) -> usize;
}

/// The opinion of this folder.
#[derive(Clone, Copy, Debug)]
pub struct Own;

impl Opinion for Own {
    fn product(&self, form: Form, a: &[u16], b: &[u16], out: &mut [u16]) -> Result<(), Fault> {
        let a = form.field().value(Part::Call, a)?;
        let b = form.field().value(Part::Call, b)?;
        write(&(a * b).coefficients(), out)
    }

    fn inverse(&self, form: Form, a: &[u16], out: &mut [u16]) -> Result<(), Fault> {
        let a = form.field().value(Part::Call, a)?;
        write(&a.inverse()?.coefficients(), out)
    }

    fn encode(&self, form: Form, a: &[u16], out: &mut [u8]) -> Result<(), Fault> {
        let a = form.field().value(Part::Call, a)?;
        write(&coding::encode(&a), out)
    }

    fn decode(&self, form: Form, bytes: &[u8], out: &mut [u16]) -> Result<(), Fault> {
        let value = coding::decode(form.field(), Part::Call, bytes)?;
        write(&value.coefficients(), out)
    }

    fn tag(
        &self,
        form: Form,
        key: &[u8],
        pad: &[u8],
        body: &[u8],
        out: &mut [u8],
    ) -> Result<(), Fault> {
        let key = coding::decode(form.field(), Part::Key, key)?;
        let pad = coding::decode(form.field(), Part::Pad, pad)?;
        write(&coding::encode(&tag::tag(key, pad, body)?), out)
    }

    fn shift(&self, input: &[u8], out: &mut [u8]) -> usize {
        let text = shift(input);
        out[..text.len()].copy_from_slice(text.as_bytes());
        text.len()
    }
}

/// Writes an answer into what was lent for it, which must have its size.
fn write<T: Copy>(answer: &[T], out: &mut [T]) -> Result<(), Fault> {
    if out.len() != answer.len() {
        return Err(Refusal::WrongSize.into());
    }
    out.copy_from_slice(answer);
    Ok(())
}
