//! The source, unchanged: `capture` and `trigger` are compiled where they lie (see build.rs).

#![allow(warnings, clippy::all)]

include!(concat!(env!("OUT_DIR"), "/modules.rs"));
