//! All tests of the package as one program.

mod commands;
#[path = "../../../peer/tests/all/common.rs"]
#[allow(dead_code)]
mod common;
mod following;
mod generator;
mod logs;
mod stored;
mod workloads;
