//! The customer's Rust, unchanged, under our own list of its modules (`modules.rs`).
//!
//! Its own lib.rs is not used: it names modules that are not to be had. What the comparison asks is
//! `decoder::decode_frame`, `header::parse`, `tables` and `huffman::HuffmanTable`.

include!(concat!(env!("OUT_DIR"), "/src/modules.rs"));
