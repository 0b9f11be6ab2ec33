//! The traits of every type, asserted at compile time.

extern crate vamorilesh as async_channel;

#[path = "traits/mod.rs"]
mod assertions;
