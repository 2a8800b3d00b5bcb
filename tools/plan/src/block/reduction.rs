//! A reduction's block.

use peer::run::Cause;
use run_file::Reduction;

use super::{Block, Labels};
use crate::fault::{Fault, Names};
use crate::line::{Line, Mistake};
use crate::number::{Form, BYTE};

impl Block for Reduction {
    const PARTS: Labels = &[];
    const COUNTED: Labels = &["terms", "generators"];

    /// Any limits can: nothing else in the body hangs on them.
    fn can_be_stated(_counts: &[u8]) -> bool {
        true
    }

    fn text(&self, _form: Form) -> (String, Vec<String>) {
        (format!("{} {}", self.terms, self.generators), Vec::new())
    }

    fn read(head: &Line, _parts: &[Line]) -> Result<Reduction, Mistake> {
        let limits = match head.words.len() {
            2 => head.numbers(&head.words, BYTE)?,
            _ => return head.mistake("this is written 'reduce TERMS GENERATORS', how many may stay"),
        };
        Ok(Reduction { terms: limits[0] as usize, generators: limits[1] as usize })
    }

    fn fault(&self, _cause: Cause, _names: &Names) -> Option<Fault> {
        None
    }
}
