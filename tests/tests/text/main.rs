//! The board's text: as Rust, compiled by rustc beside the proved library, and with the faults
//! that are planted in it.

mod compilers;
mod faults;
mod written;
