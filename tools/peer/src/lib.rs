//! A second implementation of document 01 and of document 02's hull, ranged step, rounding, parts of the radius, refusal
//! of empty disturbances and laser logs, from their words alone, in the plainest style: wide integers and vectors. It is
//! what the proved programs are held against.

pub mod bounds;
pub mod finish;
pub mod hull;
mod kind;
pub mod laser;
pub mod rewrite;
pub mod run;
pub mod set;
pub mod step;
pub mod sums;
pub mod text;
