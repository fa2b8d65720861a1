//! The original's `ast`, `analyze` and `necessity`, compiled from the folder that build.rs is given.

#![allow(warnings)]

include!(concat!(env!("OUT_DIR"), "/modules.rs"));

pub mod source;
