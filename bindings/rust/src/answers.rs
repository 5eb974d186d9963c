//! Handles, refusals and kinds.

use std::fmt;

/// A node's handle.
#[derive(Clone, Copy, Debug, PartialEq, Eq, Hash, PartialOrd, Ord)]
pub struct NodeId {
    pub index: u32,
    pub generation: u32,
}

impl NodeId {
    pub(crate) fn word(self) -> u64 {
        u64::from(self.index) | (u64::from(self.generation) << 32)
    }

    /// The low half is the index, the high half the generation.
    pub(crate) fn from_word(word: u64) -> NodeId {
        NodeId { index: (word & 0xffff_ffff) as u32, generation: (word >> 32) as u32 }
    }
}

/// Why a call was refused; the discriminants are the numbers that the calls answer.
#[derive(Clone, Copy, Debug, PartialEq, Eq, Hash)]
#[repr(u8)]
pub enum Refusal {
    NotUtf8 = 1,
    InvalidName,
    InvalidText,
    BadBuffers,
    Damaged,
    Stale,
    NotAnElement,
    NotAContainer,
    NotAChild,
    NotText,
    NotRemovable,
    RootElementExists,
    WouldCycle,
    Full,
    OrderStale,
}

const REFUSALS: [Refusal; 15] = [
    Refusal::NotUtf8,
    Refusal::InvalidName,
    Refusal::InvalidText,
    Refusal::BadBuffers,
    Refusal::Damaged,
    Refusal::Stale,
    Refusal::NotAnElement,
    Refusal::NotAContainer,
    Refusal::NotAChild,
    Refusal::NotText,
    Refusal::NotRemovable,
    Refusal::RootElementExists,
    Refusal::WouldCycle,
    Refusal::Full,
    Refusal::OrderStale,
];

impl Refusal {
    #[must_use]
    pub fn number(self) -> u8 {
        self as u8
    }

    /// What a call returned: 0 is none.
    pub(crate) fn check(status: u64) -> Result<(), Refusal> {
        match status {
            0 => Ok(()),
            number => Err(REFUSALS[usize::try_from(number - 1).expect("a refusal's number is small")]),
        }
    }
}

impl fmt::Display for Refusal {
    fn fmt(&self, f: &mut fmt::Formatter<'_>) -> fmt::Result {
        write!(f, "{self:?} ({})", self.number())
    }
}

impl std::error::Error for Refusal {}

/// The three arenas, in which the lists of nodes stand.
#[derive(Clone, Copy, Debug, PartialEq, Eq)]
pub enum Arena {
    Children,
    Attributes,
    Namespaces,
}

/// A block of an arena.
#[derive(Clone, Copy, Debug, Default, PartialEq, Eq)]
pub struct Range {
    pub start: u64,
    pub len: u64,
}

/// A text field: its text slot + 1, or 0 for a text stored empty.
#[derive(Clone, Copy, Debug, Default, PartialEq, Eq)]
pub struct Text(pub u64);

/// A node as its numbers: texts and names are shown by other calls.
#[derive(Clone, Copy, Debug, PartialEq, Eq)]
pub enum NodeData {
    Root,
    Element { name: u64, attributes: Range, namespaces: Range },
    Attr { name: u64, value: Text },
    Text(Text),
    Comment(Text),
    Namespace { prefix: Text, uri: Text },
    ProcessingInstruction { target: Text, data: Text },
}

/// A node with the bytes of its texts, as the source's `kind` shows it.
#[derive(Clone, Debug, PartialEq, Eq)]
pub enum NodeKind {
    Root,
    Element { name: u64, attributes: Range, namespaces: Range },
    Attr { name: u64, value: Vec<u8> },
    Text(Vec<u8>),
    Comment(Vec<u8>),
    Namespace { prefix: Vec<u8>, uri: Vec<u8> },
    ProcessingInstruction { target: Vec<u8>, data: Vec<u8> },
}

/// The eight words of `oxml_kind`; kind 7 is no node.
pub(crate) fn data_of(words: [u64; 8]) -> Option<NodeData> {
    let [kind, name, first, second, a, b, c, d] = words;
    let (first, second) = (Text(first), Text(second));
    Some(match kind {
        0 => NodeData::Root,
        1 => NodeData::Element { name, attributes: Range { start: a, len: b }, namespaces: Range { start: c, len: d } },
        2 => NodeData::Attr { name, value: first },
        3 => NodeData::Text(first),
        4 => NodeData::Comment(first),
        5 => NodeData::Namespace { prefix: first, uri: second },
        6 => NodeData::ProcessingInstruction { target: first, data: second },
        _ => return None,
    })
}
