// The modules of the customer's Rust that exist and that a decoder needs. build.rs puts this file
// beside their copies.
pub mod bitreader;
pub mod decoder;
pub mod error;
pub mod header;
pub mod huffman;
pub mod predict;
pub mod tables;
