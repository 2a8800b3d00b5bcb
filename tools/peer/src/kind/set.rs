//! A set as a body, which a start set, the sums and the hull share.

use run_file::SetBody;

use super::Looked;
use crate::run::Cause;
use crate::set::Set;

impl Looked for SetBody {
    fn look(&self) -> Result<(), Cause> {
        let set = Set::from(self);
        Cause::Range.unless(set.is_in_range())?;
        Cause::Rule.unless(set.keeps_rules())?;
        Cause::Span.unless(!set.is_too_wide())
    }
}
