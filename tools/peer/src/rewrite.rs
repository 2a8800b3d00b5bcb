//! Stored files without empty disturbances (document 02, A.5). Fields are told apart by their headers alone, whatever
//! their tags are, so that a file which no run accepts is rewritten too.

use run_file::{whole, Tag, HEADER, MAX_DIMENSION};

/// The bytes without each whole field that is an empty disturbance. From the first field on that isn't whole all of them
/// stay.
pub fn rewrite(input: &[u8]) -> Vec<u8> {
    let mut output = Vec::new();
    let mut rest = input;
    while let Some((tag, body)) = whole(rest) {
        let (field, after) = rest.split_at(HEADER + body.len());
        if !is_empty_disturbance(tag, body) {
            output.extend(field);
        }
        rest = after;
    }
    output.extend(rest);
    output
}

/// Whether the body has a count from 1 to 6, the length for it, and radii that are all 0.
pub fn is_empty_disturbance(tag: u8, body: &[u8]) -> bool {
    match body {
        [n, radii @ ..] => {
            let n = usize::from(*n);
            let fits = (1..=MAX_DIMENSION).contains(&n) && radii.len() == 4 * n;
            tag == Tag::Disturbance as u8 && fits && radii.iter().all(|byte| *byte == 0)
        }
        [] => false,
    }
}
