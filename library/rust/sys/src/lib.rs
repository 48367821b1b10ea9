#![doc = include_str!("../README.md")]
#![no_std]

mod raw;

pub use raw::*;
