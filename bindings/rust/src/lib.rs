//! The proved editor behind the source's method names, over lent memory. What the calls promise is proved of the library that is linked; what stands here passes slices and reads answers.

mod answers;
mod document;
mod ffi;
mod reading;
mod record;
mod walk;

pub use answers::{Arena, NodeData, NodeId, NodeKind, Range, Refusal, Text};
pub use document::Document;
pub use record::{Limits, Record};
pub use walk::{Descendants, Position};
