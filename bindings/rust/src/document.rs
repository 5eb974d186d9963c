//! A document over lent memory, and the calls that edit it.

use crate::answers::{NodeId, Refusal};
use crate::ffi;
use crate::record::{Limits, Record};

/// A record with the memory that it goes with, and scratch for the editing calls.
#[derive(Debug)]
pub struct Document<'m> {
    pub(crate) record: Record,
    pub(crate) memory: &'m mut [u64],
    scratch: &'m mut [u64],
}

/// The pointers and lengths of the three buffers that every editing call is lent.
macro_rules! edit {
    ($document:ident, $call:ident $(, $argument:expr)*) => {{
        let Document { record: Record(record), memory, scratch } = $document;
        // SAFETY: each pointer and length is that of a slice that lives through the call; those that the call writes are borrowed mutably here,
        // so that no two overlap.
        unsafe {
            ffi::$call(
                record.as_mut_ptr(), record.len(),
                memory.as_mut_ptr(), memory.len(),
                scratch.as_mut_ptr(), scratch.len(),
                $($argument),*
            )
        }
    }};
}

impl<'m> Document<'m> {
    /// A document that holds the Root alone, all else zero.
    ///
    /// # Errors
    ///
    /// `BadBuffers`, where a limit is above its greatest, the node limit is 0 or the memory is too short.
    pub fn empty(limits: &Limits, memory: &'m mut [u64], scratch: &'m mut [u64]) -> Result<Self, Refusal> {
        let mut record = Record::fresh(limits);
        // SAFETY: the pointers and lengths are those of two slices that live through the call and do not overlap.
        let status =
            unsafe { ffi::oxml_start(record.0.as_mut_ptr(), record.0.len(), memory.as_mut_ptr(), memory.len()) };
        Refusal::check(status).map(|()| Document { record, memory, scratch })
    }

    /// A document kept from before. Nothing is trusted: editing calls refuse memory that is damaged.
    #[must_use]
    pub fn resume(record: Record, memory: &'m mut [u64], scratch: &'m mut [u64]) -> Self {
        Document { record, memory, scratch }
    }

    /// To be kept with the memory.
    #[must_use]
    pub fn record(&self) -> Record {
        self.record
    }

    #[must_use]
    pub fn memory(&self) -> &[u64] {
        self.memory
    }

    #[must_use]
    pub fn scratch(&self) -> &[u64] {
        self.scratch
    }
}

/// The answers are those of the source's methods, but for the differences that docs/DIFFERENCES.md lists; an absent namespace or prefix is empty.
///
/// # Errors
///
/// Every call answers why it was refused, and has then changed neither the record nor the memory.
#[allow(clippy::missing_errors_doc)]
impl Document<'_> {
    pub fn append_element(
        &mut self,
        parent: NodeId,
        namespace: Option<impl AsRef<[u8]>>,
        local: impl AsRef<[u8]>,
    ) -> Result<NodeId, Refusal> {
        let namespace = namespace.as_ref().map_or(&[][..], |namespace| namespace.as_ref());
        let local = local.as_ref();
        let mut made = [0];
        let status = edit!(
            self,
            oxml_append_element,
            parent.word(),
            namespace.as_ptr(),
            namespace.len(),
            local.as_ptr(),
            local.len(),
            made.as_mut_ptr(),
            made.len()
        );
        made_by(status, made)
    }

    pub fn append_text(&mut self, parent: NodeId, text: impl AsRef<[u8]>) -> Result<NodeId, Refusal> {
        let text = text.as_ref();
        let mut made = [0];
        let status =
            edit!(self, oxml_append_text, parent.word(), text.as_ptr(), text.len(), made.as_mut_ptr(), made.len());
        made_by(status, made)
    }

    pub fn append_comment(&mut self, parent: NodeId, text: impl AsRef<[u8]>) -> Result<NodeId, Refusal> {
        let text = text.as_ref();
        let mut made = [0];
        let status =
            edit!(self, oxml_append_comment, parent.word(), text.as_ptr(), text.len(), made.as_mut_ptr(), made.len());
        made_by(status, made)
    }

    pub fn append_pi(
        &mut self,
        parent: NodeId,
        target: impl AsRef<[u8]>,
        data: impl AsRef<[u8]>,
    ) -> Result<NodeId, Refusal> {
        let (target, data) = (target.as_ref(), data.as_ref());
        let mut made = [0];
        let status = edit!(
            self,
            oxml_append_pi,
            parent.word(),
            target.as_ptr(),
            target.len(),
            data.as_ptr(),
            data.len(),
            made.as_mut_ptr(),
            made.len()
        );
        made_by(status, made)
    }

    pub fn set_text(&mut self, id: NodeId, text: impl AsRef<[u8]>) -> Result<(), Refusal> {
        let text = text.as_ref();
        Refusal::check(edit!(self, oxml_set_text, id.word(), text.as_ptr(), text.len()))
    }

    pub fn set_attribute(
        &mut self,
        element: NodeId,
        namespace: Option<impl AsRef<[u8]>>,
        local: impl AsRef<[u8]>,
        value: impl AsRef<[u8]>,
    ) -> Result<(), Refusal> {
        let namespace = namespace.as_ref().map_or(&[][..], |namespace| namespace.as_ref());
        let (local, value) = (local.as_ref(), value.as_ref());
        Refusal::check(edit!(
            self,
            oxml_set_attribute,
            element.word(),
            namespace.as_ptr(),
            namespace.len(),
            local.as_ptr(),
            local.len(),
            value.as_ptr(),
            value.len()
        ))
    }

    /// Whether there was one.
    pub fn remove_attribute(
        &mut self,
        element: NodeId,
        namespace: Option<impl AsRef<[u8]>>,
        local: impl AsRef<[u8]>,
    ) -> Result<bool, Refusal> {
        let namespace = namespace.as_ref().map_or(&[][..], |namespace| namespace.as_ref());
        let local = local.as_ref();
        let mut found = [0];
        let status = edit!(
            self,
            oxml_remove_attribute,
            element.word(),
            namespace.as_ptr(),
            namespace.len(),
            local.as_ptr(),
            local.len(),
            found.as_mut_ptr(),
            found.len()
        );
        Refusal::check(status).map(|()| found[0] != 0)
    }

    /// An empty URI undoes the default namespace; with a prefix it is refused, unlike in the source.
    pub fn declare_namespace(
        &mut self,
        element: NodeId,
        prefix: Option<impl AsRef<[u8]>>,
        uri: impl AsRef<[u8]>,
    ) -> Result<NodeId, Refusal> {
        let prefix = prefix.as_ref().map_or(&[][..], |prefix| prefix.as_ref());
        let uri = uri.as_ref();
        let mut made = [0];
        let status = edit!(
            self,
            oxml_declare_namespace,
            element.word(),
            prefix.as_ptr(),
            prefix.len(),
            uri.as_ptr(),
            uri.len(),
            made.as_mut_ptr(),
            made.len()
        );
        made_by(status, made)
    }

    pub fn remove(&mut self, id: NodeId) -> Result<(), Refusal> {
        Refusal::check(edit!(self, oxml_remove, id.word()))
    }

    pub fn detach(&mut self, id: NodeId) -> Result<(), Refusal> {
        Refusal::check(edit!(self, oxml_detach, id.word()))
    }

    pub fn reparent(&mut self, child: NodeId, parent: NodeId) -> Result<(), Refusal> {
        Refusal::check(edit!(self, oxml_reparent, child.word(), parent.word()))
    }

    pub fn insert_at(&mut self, parent: NodeId, index: u64, child: NodeId) -> Result<(), Refusal> {
        Refusal::check(edit!(self, oxml_insert_at, parent.word(), index, child.word()))
    }

    /// Renews the order; `order_words` shows it.
    pub fn document_order(&mut self) -> Result<(), Refusal> {
        Refusal::check(edit!(self, oxml_document_order))
    }

    pub fn compact(&mut self) -> Result<(), Refusal> {
        Refusal::check(edit!(self, oxml_compact))
    }
}

fn made_by(status: u64, made: [u64; 1]) -> Result<NodeId, Refusal> {
    Refusal::check(status).map(|()| NodeId::from_word(made[0]))
}
