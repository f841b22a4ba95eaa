//! A codec in plain Rust that is written for speed, without `unsafe`: what the proved one is measured by.

pub mod decoding;
pub mod reader;
pub mod transform;
pub mod writer;
