//! Trials of Sluicestream: the proved end against an independent machine and the worst networks we can make.
//!
//! Everything random comes from a seed. A failure prints the seed and how to repeat it.

#![deny(unsafe_code)]
#![warn(missing_docs)]

pub mod fence;
pub mod flow;
pub mod host;
pub mod machine;
pub mod network;
pub mod random;
pub mod run;
pub mod stream;
pub mod trials;
