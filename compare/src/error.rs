//! Stand-ins for errors of the original's crate, which nothing here makes.
#[derive(Debug)]
pub struct DecodeError;

#[derive(Debug)]
pub struct EncodeError;
