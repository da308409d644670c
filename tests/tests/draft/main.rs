//! The draft program's executable against the draft program as a function.

mod binary;
mod reading;
