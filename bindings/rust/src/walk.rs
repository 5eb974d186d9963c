//! A walk lists the nodes below a node in document order, without attributes and namespaces, the node itself left out.

use crate::answers::{NodeId, Refusal};
use crate::document::Document;
use crate::ffi;
use crate::reading::{node_of, read};

/// Where a walk stands: the node that it began at, the one listed last, four hints, and how many may be listed yet. Any seven words are a position.
#[derive(Clone, Copy, Debug, PartialEq, Eq)]
pub struct Position(pub [u64; 7]);

/// # Errors
///
/// `BadBuffers`, where the limits or the memory's length are refused.
#[allow(clippy::missing_errors_doc)]
impl Document<'_> {
    /// As the source's; a stale node has nothing below it.
    pub fn descendants_of(&self, id: NodeId) -> Result<Descendants<'_>, Refusal> {
        Ok(Descendants { document: self, at: self.walk_from(id)? })
    }

    /// The same, all at once.
    pub fn list_below(&self, id: NodeId) -> Result<Vec<NodeId>, Refusal> {
        self.listed(|out, answer| read!(self, oxml_list_below, answer, id.word(), out.as_mut_ptr(), out.len()))
    }

    /// The position before the first node, for a walk that may go on after edits.
    pub fn walk_from(&self, id: NodeId) -> Result<Position, Refusal> {
        let mut words = [0; 7];
        Refusal::check(read!(self, oxml_descendants_of, words, id.word())).map(|()| Position(words))
    }

    /// The next node and the position there, or none at the end. After an edit only nodes that resolve are listed, as many as the node limit at most.
    pub fn walk_next(&self, at: Position) -> Result<Option<(NodeId, Position)>, Refusal> {
        let Position(mut words) = at;
        let mut answer = [0; 2];
        Refusal::check(read!(self, oxml_walk_next, answer, words.as_mut_ptr(), words.len()))?;
        Ok(node_of(answer).map(|id| (id, Position(words))))
    }
}

/// A walk that holds the document, so that no edit lies between its steps.
#[derive(Clone, Debug)]
pub struct Descendants<'d> {
    document: &'d Document<'d>,
    at: Position,
}

impl Descendants<'_> {
    /// Where the walk stands, to go on from once the document may be edited again.
    #[must_use]
    pub fn position(&self) -> Position {
        self.at
    }
}

impl Iterator for Descendants<'_> {
    type Item = NodeId;

    fn next(&mut self) -> Option<NodeId> {
        // What refuses a step refused the start: the document is as it was.
        let (id, at) = self.document.walk_next(self.at).ok().flatten()?;
        self.at = at;
        Some(id)
    }
}
