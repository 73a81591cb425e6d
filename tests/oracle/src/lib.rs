//! A second encoder for CCSDS 131.2-O-1 with Corrigendum 1 and for its extension
//! CCSDS 131.21-O-1 (document 004), written from the text of the standards, to
//! hold the first one against.
//!
//! It is slow on purpose: each stage of figures 2-1 and 4-1 is a function from
//! whole vectors to whole vectors, and every table is the printed text, read
//! when it is needed. Bits are bytes, 0 or 1; positions count from 0. A section,
//! table or figure without a document is CCSDS 131.2-O-1's.

// The standard's letters are the names here: K, I, W, N, S_sur, Delta.
#![allow(non_snake_case)]

pub mod annex_c;
pub mod annex_d;
pub mod bch;
pub mod checks;
pub mod compare;
pub mod digest;
pub mod encoder;
pub mod framing;
pub mod galois;
pub mod job_line;
pub mod judge;
pub mod puncturing_search;
pub mod segments;
pub mod self_check;
pub mod shared;
pub mod slicer;
pub mod tables;
pub mod three;
pub mod transfer;
pub mod trellis;
pub mod waveform;
pub mod wrong_rows;
