//! The same codes and the same decoding rule written for speed, to race against.
//! Words are packed 64 places to a number; order 1 readings stay in registers; votes are counted by binary digit.
//! Nothing is allocated outside `Workspace::new` and the listing.

mod affine;
mod call;
mod code;
mod decode;
mod lanes;
mod leaf;
mod leaf_plain;
mod listing;
mod message;
mod places;
pub mod plain;
mod profiles;
mod reading;
mod second_order;
mod votes;
mod word;
mod workspace;

pub use call::{check_decoding, Answer};
pub use code::{encode, is_codeword, read_message};
pub use decode::{decode, decode_profile};
pub use listing::{listing, plain_listing, Reader};
pub use profiles::{profile, Profile};
pub use workspace::Workspace;
