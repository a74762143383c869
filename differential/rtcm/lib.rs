//! rtcm-rs 0.11.0, built from its own files in the folder that the build script was told, and the calls that the
//! comparison makes into it.
//!
//! This crate is built twice, with and without overflow checks. So that each build's arithmetic stays its own, every
//! generic function of rtcm-rs is instantiated here, behind functions that are never inlined.
#![forbid(unsafe_code)]

// The source names both crates from the crate's root.
extern crate crc_any;
extern crate tinyvec;

mod raw_message;

include!(concat!(env!("OUT_DIR"), "/rtcm.rs"));

pub mod calls;
