//! The Rust module and the port, side by side.
//!
//! The module is compiled as it is, from the file that `RELATIVE_PTR_RS` names; `de`, `enc` and `error` stand in for what
//! it knows of its own crate. The port is its static library, called by `port`.
extern crate alloc;

pub mod de;
pub mod dice;
pub mod difference;
pub mod enc;
pub mod error;
pub mod kinds;
pub mod lives;
pub mod looks;
pub mod memory;
pub mod port;
pub mod record;
pub mod shapes;
pub mod small;
pub mod texts;

/// The original, unchanged.
pub mod original {
    include!(concat!(env!("OUT_DIR"), "/original.rs"));
    pub use relative_ptr::*;
}
