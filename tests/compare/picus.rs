//! picus's sources as a library; compiled where they are laid out, with the stand-ins of tests/oracle/rust beside them.
#![allow(dead_code)]

// `repr.rs` imports a crate `num_bigint`; this crate stands in for it.
extern crate self as num_bigint;
pub struct BigUint;

pub mod divmask;
mod field;
pub mod hilbert;
mod matrix_order;
pub mod monomial;
#[cfg(noted)]
pub mod note;
mod polynomial;
mod repr;
