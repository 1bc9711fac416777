//! The comparison of a decoder with the second decoder, call by call: answer, output and area.

pub mod alike;
pub mod arrays;
mod bad_calls;
pub mod blocks;
pub mod call;
pub mod channel;
pub mod code_calls;
pub mod compare;
pub mod confidences;
pub mod decoder;
pub mod decoders;
pub mod gaps;
pub mod guarantee;
mod lent;
pub mod loads;
pub mod plan;
pub mod random;
mod small;
pub mod streets;
pub mod tables;
pub mod tallies;
pub mod values;

pub use compare::{Comparison, Disagreement};
pub use decoder::{Answer, Beyond, Confidences, Decoder};
