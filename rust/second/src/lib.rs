//! A second encoder, message reader, codeword test, decoder of bits and of confidences, gap, load of table files, capture reader, named
//! tallies, generator of loads, street and decoder of arrays, written from the papers alone and for plainness, not speed: everything is found
//! by search and by trying all codewords. The codeword test stands twice, by the coefficients and by the steps of document 02.
//! It can be made wrong in named ways (`Fault`), to show that a comparison with it notices them.

mod answer;
pub mod array;
mod calls;
mod checks;
pub mod code;
mod confidences;
pub mod direction;
mod fault;
pub mod gap;
mod leaves;
pub mod load;
pub mod profiles;
mod reading;
pub mod soft_reading;
pub mod steps;
pub mod street;
pub mod table;
pub mod tallies;

pub use answer::Answer;
pub use calls::Second;
pub use checks::message_bits;
pub use fault::Fault;
