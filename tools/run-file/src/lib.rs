//! What a run file is (documents 01 and 02): a list of fields, each a tag, the length of its body in 2 bytes, and the
//! body; numbers little-endian. What a field means stands in `peer`, how it is written as text in `plan`.

mod body;
mod bytes;
mod field;
mod limits;

pub use body::{
    counts_fit, Body, Counts, HalfWidths, Halfspace, Matrix, RangedStep, Reduction, SetBody, Step, Term, DIMENSION,
};
pub use bytes::Reader;
pub use field::{kind, whole, Field, Kind, Tag, HEADER};
pub use limits::*;
