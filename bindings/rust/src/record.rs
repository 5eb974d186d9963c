//! The record that goes with a document's memory: its limits, how much it holds, and whether the order is current.

/// How much a document may hold.
#[derive(Clone, Copy, Debug, PartialEq, Eq)]
pub struct Limits {
    pub nodes: u64,
    pub children: u64,
    pub attributes: u64,
    pub namespaces: u64,
    pub texts: u64,
    pub text_bytes: u64,
    pub names: u64,
    pub name_bytes: u64,
}

impl Limits {
    /// In the order of the record.
    #[must_use]
    pub fn numbers(&self) -> [u64; 8] {
        [
            self.nodes,
            self.children,
            self.attributes,
            self.namespaces,
            self.texts,
            self.text_bytes,
            self.names,
            self.name_bytes,
        ]
    }

    /// How many words of document memory they need (docs/LAYOUT.md).
    #[must_use]
    pub fn document_words(&self) -> usize {
        let entries = self.children + self.attributes + self.namespaces;
        let words = 15 * self.nodes + 2 * entries + 2 * self.texts + self.text_bytes + 2 * self.names + self.name_bytes;
        usize::try_from(words).expect("limits of a document that fits in memory")
    }

    /// How many words of scratch they need.
    #[must_use]
    pub fn scratch_words(&self) -> usize {
        let words = 4 * self.nodes + self.children + self.attributes + self.namespaces + self.texts;
        usize::try_from(words).expect("limits of a document that fits in memory")
    }
}

/// Nineteen words: eight limits, ten counts, and whether the order is current. Whatever they are, every call answers.
#[derive(Clone, Copy, Debug, PartialEq, Eq)]
pub struct Record(pub [u64; 19]);

impl Record {
    /// Of limits, for `Document::empty`.
    pub(crate) fn fresh(limits: &Limits) -> Record {
        let mut words = [0; 19];
        words[..8].copy_from_slice(&limits.numbers());
        Record(words)
    }

    /// Slots made, slots free, entries of the three arenas, text slots made and free, text bytes, names, name bytes.
    #[must_use]
    pub fn counts(&self) -> &[u64] {
        &self.0[8..18]
    }
}
