//! The crate `vamorilesh` under the name of async-channel 2.5.0, for `[patch.crates-io]`.

pub use vamorilesh::*;
