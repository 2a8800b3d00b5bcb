//! A check's block.

use peer::run::Cause;
use run_file::{Halfspace, BOUND_LIMIT, ENTRY_LIMIT, MAX_HALFSPACES, SQUARE_UNIT};

use super::{labelled, words, Block, Labels};
use crate::fault::{unit, Fault, Names};
use crate::line::{several, Line, Mistake};
use crate::number::{Form, BOUND, WORD};

impl Block for Vec<Halfspace> {
    const PARTS: Labels = &["halfspace"];
    const COUNTED: Labels = &["coordinates", "halfspaces"];

    fn text(&self, form: Form) -> (String, Vec<String>) {
        let line = |halfspace: &Halfspace| {
            let normal = labelled("halfspace", &words(&halfspace.normal, form));
            format!("{normal} : {}", BOUND.text(halfspace.bound, form))
        };
        let dimension = self.first().map_or(0, |halfspace| halfspace.normal.len());
        (dimension.to_string(), self.iter().map(line).collect())
    }

    fn read(head: &Line, parts: &[Line]) -> Result<Vec<Halfspace>, Mistake> {
        let n = head.dimension()?;
        let region = several(parts, "halfspace", MAX_HALFSPACES, |part| {
            let (normal, bound) = part.halves()?;
            Ok(Halfspace { normal: part.exactly(normal, n, WORD)?, bound: part.exactly(bound, 1, BOUND)?[0] })
        })?;
        if region.is_empty() {
            return head.mistake("a check needs a halfspace");
        }
        Ok(region)
    }

    /// 0·x ≤ b with b below 0 holds of no x.
    fn note(&self, _parts: &[Line]) -> Option<String> {
        let holds_nowhere = |h: &Halfspace| h.normal.iter().all(|a| *a == 0) && h.bound < 0;
        let what = "a halfspace of this check has no point, so that it says safe of every set";
        self.iter().any(holds_nowhere).then(|| what.to_string())
    }

    fn fault(&self, cause: Cause, _names: &Names) -> Option<Fault> {
        if cause != Cause::Range {
            return None;
        }
        self.iter().enumerate().find_map(|(h, halfspace)| {
            let what = if let Some(i) = halfspace.normal.iter().position(|a| a.abs() > ENTRY_LIMIT) {
                format!("the number of coordinate {} is beyond {}", i + 1, unit(ENTRY_LIMIT))
            } else if halfspace.bound.abs() > BOUND_LIMIT {
                format!("the bound is beyond {}", BOUND_LIMIT / SQUARE_UNIT)
            } else {
                return None;
            };
            Some(Fault::of("halfspace", h, what))
        })
    }
}
