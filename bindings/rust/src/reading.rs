//! The reading calls: they test the limits and the memory's length only, and show damaged memory too.

use crate::answers::{Arena, NodeData, NodeId, NodeKind, Range, Refusal, Text, data_of};
use crate::document::Document;
use crate::ffi;

/// A call that fills `$answer` words.
macro_rules! read {
    ($document:expr, $call:ident, $answer:expr $(, $argument:expr)*) => {{
        let (record, memory) = (&$document.record.0, &*$document.memory);
        // SAFETY: each pointer and length is that of a slice that lives through the call; the call writes to the answer alone, which is borrowed mutably here.
        unsafe {
            ffi::$call(
                record.as_ptr(), record.len(),
                memory.as_ptr(), memory.len(),
                $($argument,)*
                $answer.as_mut_ptr(), $answer.len(),
            )
        }
    }};
}
pub(crate) use read;

/// A call that shows words: how many there are, and the words if they fit.
macro_rules! shown {
    ($document:expr, $out:expr, $call:ident $(, $argument:expr)*) => {{
        let count = read!($document, $call, $out $(, $argument)*);
        usize::try_from(count).expect("no more words than the memory has")
    }};
}

/// # Errors
///
/// `BadBuffers`, where the limits or the memory's length are refused.
#[allow(clippy::missing_errors_doc)]
impl Document<'_> {
    pub fn root(&self) -> Result<NodeId, Refusal> {
        let mut answer = [0];
        Refusal::check(read!(self, oxml_root, answer)).map(|()| NodeId::from_word(answer[0]))
    }

    /// What a node is, by numbers.
    pub fn data(&self, id: NodeId) -> Result<Option<NodeData>, Refusal> {
        let mut answer = [0; 8];
        Refusal::check(read!(self, oxml_kind, answer, id.word())).map(|()| data_of(answer))
    }

    /// What a node is, with the bytes of its texts.
    pub fn kind(&self, id: NodeId) -> Result<Option<NodeKind>, Refusal> {
        Ok(self.data(id)?.map(|data| match data {
            NodeData::Root => NodeKind::Root,
            NodeData::Element { name, attributes, namespaces } => NodeKind::Element { name, attributes, namespaces },
            NodeData::Attr { name, value } => NodeKind::Attr { name, value: self.text_bytes(value) },
            NodeData::Text(text) => NodeKind::Text(self.text_bytes(text)),
            NodeData::Comment(text) => NodeKind::Comment(self.text_bytes(text)),
            NodeData::Namespace { prefix, uri } => {
                NodeKind::Namespace { prefix: self.text_bytes(prefix), uri: self.text_bytes(uri) }
            }
            NodeData::ProcessingInstruction { target, data } => {
                NodeKind::ProcessingInstruction { target: self.text_bytes(target), data: self.text_bytes(data) }
            }
        }))
    }

    pub fn parent(&self, id: NodeId) -> Result<Option<NodeId>, Refusal> {
        let mut answer = [0; 2];
        Refusal::check(read!(self, oxml_parent, answer, id.word())).map(|()| node_of(answer))
    }

    pub fn root_element(&self) -> Result<Option<NodeId>, Refusal> {
        let mut answer = [0; 2];
        Refusal::check(read!(self, oxml_root_element, answer)).map(|()| node_of(answer))
    }

    pub fn is_element(&self, id: NodeId) -> Result<bool, Refusal> {
        let mut answer = [0];
        Refusal::check(read!(self, oxml_is_element, answer, id.word())).map(|()| answer[0] != 0)
    }

    /// The block of a node's list.
    pub fn range(&self, arena: Arena, id: NodeId) -> Result<Range, Refusal> {
        let mut answer = [0; 2];
        let status = match arena {
            Arena::Children => read!(self, oxml_children, answer, id.word()),
            Arena::Attributes => read!(self, oxml_attribute_nodes, answer, id.word()),
            Arena::Namespaces => read!(self, oxml_namespace_nodes, answer, id.word()),
        };
        Refusal::check(status).map(|()| Range { start: answer[0], len: answer[1] })
    }

    pub fn children(&self, id: NodeId) -> Result<Vec<NodeId>, Refusal> {
        self.list(Arena::Children, id)
    }

    pub fn attribute_nodes(&self, id: NodeId) -> Result<Vec<NodeId>, Refusal> {
        self.list(Arena::Attributes, id)
    }

    pub fn namespace_nodes(&self, id: NodeId) -> Result<Vec<NodeId>, Refusal> {
        self.list(Arena::Namespaces, id)
    }

    fn list(&self, arena: Arena, id: NodeId) -> Result<Vec<NodeId>, Refusal> {
        let range = self.range(arena, id)?;
        let words = self.all(|out| self.entries(arena, range, out));
        Ok(words.into_iter().map(NodeId::from_word).collect())
    }

    /// Namespace and local part of a name number.
    pub fn name(&self, number: u64) -> Result<Option<(Vec<u8>, Vec<u8>)>, Refusal> {
        let mut answer = [0];
        Refusal::check(read!(self, oxml_name, answer, number))?;
        if answer[0] == 0 {
            return Ok(None);
        }
        let namespace = self.all(|out| shown!(self, out, oxml_namespace_bytes, number));
        let local = self.all(|out| self.local_words(number, out));
        Ok(Some((bytes(&namespace), bytes(&local))))
    }

    /// Every live node, in slot order.
    pub fn nodes(&self) -> Result<Vec<NodeId>, Refusal> {
        self.listed(|out, answer| read!(self, oxml_nodes, answer, out.as_mut_ptr(), out.len()))
    }

    /// By a call that lists nodes in a slice that is lent to it, and answers their count.
    pub(crate) fn listed(&self, list: impl FnOnce(&mut [u64], &mut [u64; 1]) -> u64) -> Result<Vec<NodeId>, Refusal> {
        let most = usize::try_from(self.record.0[0]).unwrap_or(usize::MAX).min(self.memory.len());
        let mut out = vec![0; most];
        let mut answer = [0];
        Refusal::check(list(&mut out, &mut answer))?;
        out.truncate(usize::try_from(answer[0]).expect("no more nodes than the limit"));
        Ok(out.into_iter().map(NodeId::from_word).collect())
    }

    pub fn order_key(&self, id: NodeId) -> Result<Option<u64>, Refusal> {
        let mut answer = [0; 2];
        Refusal::check(read!(self, oxml_order_key, answer, id.word())).map(|()| (answer[0] != 0).then_some(answer[1]))
    }
}

/// What a place in memory shows; nothing where the memory is refused.
impl Document<'_> {
    /// The order's word for each slot made.
    #[must_use]
    pub fn order_words(&self) -> Vec<u64> {
        self.all(|out| shown!(self, out, oxml_order_words))
    }

    /// The handles of a block: how many there are; they stand at the front of `out` if they fit.
    pub fn entries(&self, arena: Arena, range: Range, out: &mut [u64]) -> usize {
        shown!(self, out, oxml_entries, arena as u64, range.start, range.len)
    }

    /// The bytes of a text, one a word, as `entries`.
    pub fn text_words(&self, text: Text, out: &mut [u64]) -> usize {
        shown!(self, out, oxml_text_bytes, text.0)
    }

    /// The local part of a name, one byte a word, as `entries`.
    pub fn local_words(&self, number: u64, out: &mut [u64]) -> usize {
        shown!(self, out, oxml_local_bytes, number)
    }

    #[must_use]
    pub fn text_bytes(&self, text: Text) -> Vec<u8> {
        bytes(&self.all(|out| self.text_words(text, out)))
    }

    /// Asks how many words there are, then for them.
    fn all(&self, show: impl Fn(&mut [u64]) -> usize) -> Vec<u64> {
        let mut out = vec![0; show(&mut [])];
        show(&mut out);
        out
    }
}

pub(crate) fn node_of(answer: [u64; 2]) -> Option<NodeId> {
    (answer[0] != 0).then(|| NodeId::from_word(answer[1]))
}

/// One byte a word; of a word that is damaged, its low byte.
fn bytes(words: &[u64]) -> Vec<u8> {
    words.iter().map(|word| (word & 0xff) as u8).collect()
}
