//! Tests and measurements of the proved functions against plain Rust.
//!
//! - `dictionary`: document 01's rules for a dictionary, held by plain Rust: the rival.
//! - `reader`, `writer`, `desk`: document 01's reader, writer and desk, held by plain Rust: rivals.
//! - `proved`: the proved functions, called through their C boundary.
//! - `figure`: the dictionary of DSP0218's Figure 6.
//! - `make`: dictionaries and payloads for both to judge: ordinary, small, hostile and damaged ones.
//! - `cases`: cases drawn at random for whoever judges them. `trial`: comparisons of both on them. `guard`: the memory that
//!   their buffers are lent from.
//! - `lines`: the lines of the bench's programs, and what the rivals answer to them.
//! - `timing`: ratios of times taken in one run.
//! - `random`: the numbers that the makers draw, the same for the same seed on every machine.

pub mod cases;
pub mod desk;
pub mod dictionary;
pub mod figure;
pub mod guard;
pub mod lines;
pub mod make;
pub mod proved;
pub mod random;
pub mod reader;
pub mod timing;
pub mod trial;
pub mod writer;
