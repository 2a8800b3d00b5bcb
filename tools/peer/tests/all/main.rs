//! All tests of the package as one program.

mod commands;
mod common;
mod comparing;
mod document01;
mod examples;
mod failing;
mod hulls;
mod kept_answers;
mod laser;
mod mirrors;
mod radii;
mod radius_rule;
mod ranges;
mod readings;
mod refusals;
mod rewriting;
