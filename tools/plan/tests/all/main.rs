//! All tests of the package as one program.

mod commands;
mod explaining;
mod logs;
mod mistakes;
mod numbers;
mod plans;
mod refusals;
mod using;

use plan::encode::encode;

/// A plan's run file.
fn encoded(plan: &str) -> Vec<u8> {
    match encode(plan) {
        Ok(encoded) => encoded.bytes,
        Err(mistake) => panic!("line {}: {}", mistake.line, mistake.message),
    }
}
