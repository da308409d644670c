//! The console as a process against the console as a function. The sessions that are written
//! out are in `sessions`.

mod calls;
mod lines;
mod reading;
mod records;
mod runs;
mod state;
mod support;
