//! The reference: its files as they stand, found by the build script.

include!(concat!(env!("OUT_DIR"), "/popsketch.rs"));
