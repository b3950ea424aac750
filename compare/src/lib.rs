//! A second opinion on the ticket engine, written from the documents alone and by other methods,
//! and a driver that compares it with the engine on many inputs.
//!
//! [`field`], [`coding`], [`tag`], [`issuer`], [`validator`], [`tape`] and [`shift`] are the
//! opinion. [`opinion`] is what can be asked of it and of the engine alike; the adapter to the
//! engine's library is the module `engine`, which is there only if the library is linked.
//! [`case`], [`values`] and [`shifts`] are the inputs, [`driver`] compares.

pub mod case;
pub mod coding;
pub mod driver;
#[cfg(any(feature = "engine", test))]
pub mod engine;
pub mod fault;
pub mod field;
pub mod hex;
pub mod issuer;
pub mod opinion;
pub mod random;
pub mod shift;
pub mod shifts;
#[cfg(all(test, not(feature = "engine")))]
mod stand_in;
pub mod tag;
pub mod tape;
pub mod validator;
pub mod values;
