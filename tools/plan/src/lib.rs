//! Plans: run files as text, laser logs as text, and what a run says of a plan in words. It is what a consultant works
//! with, and is not proved: what `motion` answers is proved of the bytes that it is given.

mod block;
pub mod encode;
pub mod explain;
mod fault;
mod line;
pub mod log;
pub mod number;
pub mod refusal;
pub mod show;

pub use fault::words;
pub use line::Mistake;
