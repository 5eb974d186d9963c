//! Limits, and Full: the one refusal of the port that the Rust has no counterpart for. It is counted before the call, on what the document holds then.

use crate::calls::{Bytes, Call, optional_bytes};
use crate::state::{Arena, arena_length, block_of, records};
use crate::tree::{Chars, Document, NodeData, NodeId};
use std::fmt;

/// How much a document may hold; the same shape counts how much it does hold.
#[derive(Clone, Copy, Debug, PartialEq, Eq)]
pub(crate) struct Limits {
    pub(crate) nodes: u64,
    pub(crate) entries: [u64; 3],
    pub(crate) texts: u64,
    pub(crate) text_bytes: u64,
    pub(crate) names: u64,
    pub(crate) name_bytes: u64,
}

/// The limits of a list that chooses none.
pub(crate) const OWN: Limits =
    Limits { nodes: 2_048, entries: [8_192; 3], texts: 4_096, text_bytes: 65_536, names: 512, name_bytes: 16_384 };

/// "Greatest: 65,536 nodes (N); 262,144 entries in each of three arenas (A, B, C); .."
pub(crate) const GREATEST: Limits = Limits {
    nodes: 65_536,
    entries: [262_144; 3],
    texts: 131_072,
    text_bytes: 16_777_216,
    names: 4_096,
    name_bytes: 1_048_576,
};

impl Limits {
    /// In the order of a `limits` line.
    pub(crate) fn numbers(&self) -> [u64; 8] {
        let [a, b, c] = self.entries;
        [self.nodes, a, b, c, self.texts, self.text_bytes, self.names, self.name_bytes]
    }

    pub(crate) fn from_numbers(numbers: &[u64]) -> Option<Self> {
        let &[nodes, a, b, c, texts, text_bytes, names, name_bytes] = numbers else {
            return None;
        };
        Some(Limits { nodes, entries: [a, b, c], texts, text_bytes, names, name_bytes })
    }

    /// Whether each number is at most the other's.
    pub(crate) fn within(&self, other: &Limits) -> bool {
        self.numbers().iter().zip(other.numbers()).all(|(mine, theirs)| *mine <= theirs)
    }

    /// The greater of each number.
    pub(crate) fn join(&self, other: &Limits) -> Limits {
        let mut numbers = self.numbers();
        for (mine, theirs) in numbers.iter_mut().zip(other.numbers()) {
            *mine = theirs.max(*mine);
        }
        Limits::from_numbers(&numbers).expect("eight numbers")
    }

    /// What a document holds: slots made, arena lengths, text slots made, text bytes, names, name bytes.
    pub(crate) fn held(document: &Document) -> Limits {
        Limits {
            nodes: document.nodes.len() as u64,
            entries: Arena::ALL.map(|arena| arena_length(document, arena)),
            texts: document.expanded.len() as u64,
            text_bytes: document.expanded.iter().map(|text| text.len() as u64).sum(),
            names: document.names.len() as u64,
            name_bytes: document.names.iter().map(name_length).sum(),
        }
    }

    /// Test 4 with buffers that fit `OWN` and no more: the formula of document memory and that of scratch.
    pub(crate) fn start_accepts(&self) -> bool {
        self.nodes > 0
            && self.within(&GREATEST)
            && self.document_words() <= OWN.document_words()
            && self.scratch_words() <= OWN.scratch_words()
    }

    fn document_words(&self) -> u64 {
        15 * self.nodes
            + 2 * self.entries.iter().sum::<u64>()
            + 2 * self.texts
            + self.text_bytes
            + 2 * self.names
            + self.name_bytes
    }

    pub(crate) fn scratch_words(&self) -> u64 {
        4 * self.nodes + self.entries.iter().sum::<u64>() + self.texts
    }
}

impl fmt::Display for Limits {
    fn fmt(&self, f: &mut fmt::Formatter<'_>) -> fmt::Result {
        let words: Vec<String> = self.numbers().iter().map(u64::to_string).collect();
        f.write_str(&words.join(" "))
    }
}

fn name_length(name: &crate::tree::ExpandedName) -> u64 {
    (name.namespace.as_ref().map_or(0, String::len) + name.local.len()) as u64
}

/// What a call may lack.
#[derive(Clone, Copy, Debug, PartialEq, Eq, PartialOrd, Ord)]
pub(crate) enum Lack {
    Slot,
    TextSlot,
    TextBytes,
    Name,
    NameBytes,
    Entries,
}

/// What a call lacks, were it otherwise accepted: Full when that is anything. A handle that doesn't resolve needs nothing, since the call is refused for it.
pub(crate) fn lacks(document: &Document, limits: &Limits, call: &Call) -> Vec<Lack> {
    let room = Room { document, limits, held: Limits::held(document) };
    match call {
        Call::AppendElement { parent, namespace, local } => {
            [room.name(optional_bytes(namespace), local), room.slot(), room.insertion(*parent, Arena::Children)]
                .concat()
        }
        Call::AppendText { parent, text } | Call::AppendComment { parent, text } => room.child(*parent, &[text]),
        Call::AppendPi { parent, target, data } => room.child(*parent, &[target, data]),
        Call::SetText { node, text } => room.replacement(text_of(document, *node), text),
        Call::SetAttribute { element, namespace, local, value } => {
            room.attribute(*element, optional_bytes(namespace), local, value)
        }
        Call::DeclareNamespace { element, prefix, uri } => room.declaration(*element, optional_bytes(prefix), uri),
        Call::Reparent { node, parent } | Call::InsertAt { parent, child: node, .. } => room.movement(*node, *parent),
        _ => Vec::new(),
    }
}

/// The document with what its limits leave.
struct Room<'a> {
    document: &'a Document,
    limits: &'a Limits,
    held: Limits,
}

fn unless(enough: bool, lack: Lack) -> Vec<Lack> {
    if enough { Vec::new() } else { vec![lack] }
}

impl Room<'_> {
    fn slot(&self) -> Vec<Lack> {
        let enough = !self.document.free_slots.is_empty() || self.held.nodes < self.limits.nodes;
        unless(enough, Lack::Slot)
    }

    /// `count` text slots, and `on` bytes in place of `off`.
    fn text(&self, count: u64, off: u64, on: u64) -> Vec<Lack> {
        let free = self.document.free_expanded.len() as u64;
        let slots = count <= free + (self.limits.texts - self.held.texts);
        let bytes = self.held.text_bytes - off + on <= self.limits.text_bytes;
        [unless(slots, Lack::TextSlot), unless(bytes, Lack::TextBytes)].concat()
    }

    /// New texts: an empty one takes nothing.
    fn texts(&self, new: &[&Bytes]) -> Vec<Lack> {
        let count = new.iter().filter(|text| !text.is_empty()).count();
        self.text(count as u64, 0, new.iter().map(|text| text.len() as u64).sum())
    }

    /// A text in place of one that is stored: its slot is kept, also an emptied one.
    fn replacement(&self, old: Option<Chars>, new: &Bytes) -> Vec<Lack> {
        match old {
            Some(chars @ Chars::Expanded(_)) => self.text(0, self.document.chars(chars).len() as u64, new.len() as u64),
            _ => self.texts(&[new]),
        }
    }

    fn name(&self, namespace: &[u8], local: &[u8]) -> Vec<Lack> {
        let known = self.document.names.iter().any(|name| same_name(name, namespace, local));
        if known {
            return Vec::new();
        }
        let bytes = self.held.name_bytes + (namespace.len() + local.len()) as u64;
        [
            unless(self.held.names < self.limits.names, Lack::Name),
            unless(bytes <= self.limits.name_bytes, Lack::NameBytes),
        ]
        .concat()
    }

    /// One more entry in a block: none while it is shorter than its capacity, else max(2 × length, 4) at the arena's end.
    fn insertion(&self, owner: NodeId, arena: Arena) -> Vec<Lack> {
        let Some((start, len)) = block_of(self.document, owner, arena) else {
            return Vec::new();
        };
        let recorded = records(self.document, arena).get(&start).copied().unwrap_or(0);
        let capacity = if len == 0 { 0 } else { recorded.max(len) };
        if len < capacity {
            return Vec::new();
        }
        self.block(arena, (2 * len).max(4))
    }

    fn block(&self, arena: Arena, capacity: u64) -> Vec<Lack> {
        let end = arena_length(self.document, arena) + capacity;
        unless(end <= self.limits.entries[arena as usize], Lack::Entries)
    }

    /// A new child that holds these texts.
    fn child(&self, parent: NodeId, texts: &[&Bytes]) -> Vec<Lack> {
        [self.texts(texts), self.slot(), self.insertion(parent, Arena::Children)].concat()
    }

    fn attribute(&self, element: NodeId, namespace: &[u8], local: &[u8], value: &Bytes) -> Vec<Lack> {
        if let Some(old) = attribute_value(self.document, element, namespace, local) {
            return self.replacement(Some(old), value);
        }
        [self.name(namespace, local), self.texts(&[value]), self.slot(), self.insertion(element, Arena::Attributes)]
            .concat()
    }

    fn declaration(&self, element: NodeId, prefix: &[u8], uri: &Bytes) -> Vec<Lack> {
        if let Some(old) = namespace_uri(self.document, element, prefix) {
            return self.replacement(Some(old), uri);
        }
        let prefix = prefix.to_vec();
        [self.texts(&[&prefix, uri]), self.slot(), self.insertion(element, Arena::Namespaces)].concat()
    }

    /// Within one parent the unlink leaves room, unless it empties the block, which then loses its capacity and moves.
    fn movement(&self, node: NodeId, parent: NodeId) -> Vec<Lack> {
        if self.document.parent(node) != Some(parent) {
            return self.insertion(parent, Arena::Children);
        }
        match block_of(self.document, parent, Arena::Children) {
            Some((_, 1)) => self.block(Arena::Children, 4),
            _ => Vec::new(),
        }
    }
}

fn same_name(name: &crate::tree::ExpandedName, namespace: &[u8], local: &[u8]) -> bool {
    name.namespace.as_deref().unwrap_or_default().as_bytes() == namespace && name.local.as_bytes() == local
}

fn text_of(document: &Document, node: NodeId) -> Option<Chars> {
    match document.resolve(node)?.data {
        NodeData::Text(chars) => Some(chars),
        _ => None,
    }
}

fn attribute_value(document: &Document, element: NodeId, namespace: &[u8], local: &[u8]) -> Option<Chars> {
    document.attribute_nodes(element).iter().find_map(|id| match document.resolve(*id)?.data {
        NodeData::Attr { name, value } if same_name(document.name(name)?, namespace, local) => Some(value),
        _ => None,
    })
}

fn namespace_uri(document: &Document, element: NodeId, given: &[u8]) -> Option<Chars> {
    document.namespace_nodes(element).iter().find_map(|id| match document.resolve(*id)?.data {
        NodeData::Namespace { prefix, uri } if document.chars(prefix).as_bytes() == given => Some(uri),
        _ => None,
    })
}
