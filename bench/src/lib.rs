//! Plain Rust versions of the questions that the proved code answers, what the plain programs share, and the hard cases of the occurrence layer.

pub mod occurrence;
pub mod peers;
pub mod plain;
pub mod remarks;
