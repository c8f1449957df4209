//! The comparison of ours, the model and the customer's Rust: what generates inputs, what judges them.
//!
//! Ours is the archive where one was there at build time, else the model (the host crate's
//! `backing`). Rules are document 01's; what is outside its domain is counted apart.
#![forbid(unsafe_code)]

pub mod alone_check;
pub mod codes;
pub mod domain;
pub mod draft;
pub mod frame_check;
pub mod known_frames;
pub mod left;
pub mod made_of;
pub mod never;
pub mod our_side;
pub mod rng;
pub mod run;
pub mod rust_side;
pub mod shrink;
pub mod small;
pub mod split_check;
pub mod tally;
pub mod twist;
