//! The board as its hosts have it: the header, the static library, the example, and what the
//! documents say of them.

mod by_value_copies;
mod cut_off;
mod examples;
mod header_calls;
mod header_sizes;
mod host_documents;
mod library_needs;
mod readme;
mod support;
