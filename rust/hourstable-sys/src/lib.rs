//! The declarations of `include/hourstable.h`, which says what each function does and what its caller owes. The crate
//! `hourstable` has safe types over them.
#![no_std]
#![allow(non_camel_case_types)]

#[rustfmt::skip]
mod header;

pub use header::*;
