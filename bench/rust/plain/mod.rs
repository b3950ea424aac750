//! The engine's work once more, in plain Rust written by hand: no proofs, no vectors, no `unsafe`.

pub mod coding;
pub mod fault;
pub mod field;
pub mod polynomial;
pub mod prime;
pub mod shift;
pub mod tag;
pub mod validator;
