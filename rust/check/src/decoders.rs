//! The decoders that can be compared.

mod faulty;
#[cfg(feature = "library")]
mod library;
mod opponent;

pub use faulty::Faulty;
#[cfg(feature = "library")]
pub use library::Library;
pub use opponent::Opponent;
