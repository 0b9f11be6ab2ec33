// Written by tools/erase.
//! The proved source, without its contracts.

#[cfg_attr(vamorilesh_run, deny(dead_code))]
#[cfg_attr(not(any(vamorilesh_run, target_family = "wasm")), warn(dead_code))]
pub(crate) mod event_list;
#[cfg_attr(vamorilesh_run, deny(dead_code))]
#[cfg_attr(not(any(vamorilesh_run, target_family = "wasm")), warn(dead_code))]
pub(crate) mod channel_core;
#[cfg(vamorilesh_run)]
#[deny(dead_code)]
pub(crate) mod channel_model;
#[cfg(vamorilesh_run)]
#[deny(dead_code)]
pub(crate) mod channel_run;
