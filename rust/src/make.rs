//! Makers of dictionaries, payloads and texts. Each is the same for the same seed or parameters on every machine.
//!
//! - `draft`: rows and names, laid down as bytes.
//! - `ordinary`: like a Redfish resource; accepted.
//! - `small`: a few rows near the edges of the rules; accepted or not.
//! - `hostile`: made to be slow to judge; accepted, or refused for its last row only.
//! - `damage`: a good dictionary with a few changes.
//! - `siblings`: a thousand names of one length in one set, and texts that name them all.
//! - `payload`, `text`: right ones under a dictionary, with what the paper leaves free, and damaged ones.

pub mod damage;
pub mod draft;
pub mod hostile;
pub mod ordinary;
pub mod payload;
pub mod siblings;
pub mod small;
pub mod text;
