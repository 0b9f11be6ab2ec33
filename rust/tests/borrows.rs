//! The borrows of handles and futures, which have to compile.

extern crate vamorilesh as async_channel;

#[path = "borrows/mod.rs"]
mod borrows;
