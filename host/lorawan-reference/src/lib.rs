//! The crate lorawan 0.9.0 as published, without its default crypto: the judge of the port.
#![no_std]
#![allow(clippy::all)]

include!(concat!(env!("OUT_DIR"), "/modules.rs"));
