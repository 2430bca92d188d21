//! Document 01's layout: the unit, the result, the answers and the lent buffers; and document 02's lines (L3).
//!
//! Written from the documents alone. Everything is little-endian.

mod answer;
pub mod buffers;
mod entries;
pub mod hex;
mod parts;
mod refusal;
mod result;
mod section;

pub use answer::{Answer, Cleaned};
pub use buffers::Lengths;
pub use entries::{Case, Constant, Entry, Function, Instruction, Kind, Line, Metadata};
pub use entries::{CONSTANT_BOOL, CONSTANT_FLOAT, CONSTANT_INT, CONSTANT_NIL, CONSTANT_STRING};
pub use entries::{TYPE_FLOAT, TYPE_GC_BASE, TYPE_VALUE};
pub use parts::Parts;
pub use refusal::Refusal;
pub use result::{Retained, Rewritten, RESULT_HEADER_LEN};
pub use section::{Header, Section, Unit, HEADER_LEN, MAX_LOCAL_SLOTS, MAX_SELECT_CASES};
