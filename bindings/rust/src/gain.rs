//! The gain row.

pub mod quantization;
