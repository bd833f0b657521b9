//! The independent second program: the ingress policing stage of a bridge.
//! It follows document 01 and nothing else, so that it can disagree with the
//! first one.
//!
//! Everything here is exact and plain. Buckets are counted in whole parts of
//! an octet (see [`tokens`]), so no fraction is ever rounded.

pub mod bridge;
pub mod fields;
pub mod filter;
pub mod gate;
pub mod generator;
pub mod meter;
pub mod print;
pub mod random;
pub mod reader;
pub mod record;
pub mod refusal;
pub mod run;
pub mod scheduler;
pub mod text;
pub mod tokens;
pub mod trace;
pub mod traffic_class;

#[cfg(test)]
mod tests;
