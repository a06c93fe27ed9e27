//! The plain side: a tracer, an engine that sweeps, steps, views, a map, a listing writer, the listing program, a reader of
//! listings, the program that unlists, a replay of logs, whole and in blocks, and a term report, written by hand as one would
//! without proofs. It knows no pins, and trusts its own marks; where it is asked of one position, and for each block of a log, it
//! looks for damage, as the documents have it.

pub mod asked;
pub mod back;
pub mod blocks;
pub mod damage;
pub mod decode;
pub mod digits;
pub mod forms;
pub mod input;
pub mod list;
pub mod listing;
pub mod maps;
pub mod replay;
pub mod report;
pub mod steps;
pub mod sweep;
pub mod trace;
pub mod unlist;
pub mod views;
