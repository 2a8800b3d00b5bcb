//! A disturbance's block.

use peer::run::Cause;
use run_file::DISTURBANCE_LIMIT;

use super::{labelled, words, Block, Labels};
use crate::fault::{unit, Fault, Names};
use crate::line::{vector, Line, Mistake};
use crate::number::Form;

impl Block for Vec<i128> {
    const PARTS: Labels = &["radii"];
    const COUNTED: Labels = &["coordinates"];

    fn text(&self, form: Form) -> (String, Vec<String>) {
        (self.len().to_string(), vec![labelled("radii", &words(self, form))])
    }

    fn read(head: &Line, parts: &[Line]) -> Result<Vec<i128>, Mistake> {
        vector(parts, "radii", head.dimension()?)
    }

    fn fault(&self, cause: Cause, _names: &Names) -> Option<Fault> {
        let what = match cause {
            Cause::Range => {
                let i = self.iter().position(|r| !(0..=DISTURBANCE_LIMIT).contains(r))?;
                format!("the radius of coordinate {} is not from 0 to {}", i + 1, unit(DISTURBANCE_LIMIT))
            }
            Cause::EmptyDisturbance => "all radii are 0: state the noise, or leave the field out".to_string(),
            _ => return None,
        };
        Some(Fault::of("radii", 0, what))
    }
}
