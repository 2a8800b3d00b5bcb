//! What tries programs: run files made for it, the second implementation that programs are held against, reads and
//! writes that fail, and motions followed with exact fractions.

pub mod compare;
pub mod failing;
pub mod follow;
pub mod fraction;
pub mod generate;
pub mod membership;
pub mod program;
pub mod random;
pub mod workload;
