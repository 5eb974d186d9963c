//! The whole state of a document as plain values, apart from the originals' types: what a dump shows and what the structure rules speak of.

use crate::calls::Bytes;
use crate::tree::{Chars, Document, NodeData, NodeId};
use std::collections::BTreeMap;
use std::fmt::Debug;

/// The three arenas, in the order of a `limits` line.
#[derive(Clone, Copy, Debug, PartialEq, Eq)]
pub(crate) enum Arena {
    Children,
    Attributes,
    Namespaces,
}

impl Arena {
    pub(crate) const ALL: [Arena; 3] = [Arena::Children, Arena::Attributes, Arena::Namespaces];

    pub(crate) fn name(self) -> &'static str {
        ["children", "attributes", "namespaces"][self as usize]
    }
}

/// Numbers are as wide as a word, so that damaged memory can be shown too.
#[derive(Clone, Debug, Default, PartialEq, Eq)]
pub(crate) struct State {
    pub(crate) slots: Vec<Slot>,
    /// Last freed last.
    pub(crate) free: Vec<u64>,
    pub(crate) arenas: [ArenaState; 3],
    pub(crate) texts: Vec<Bytes>,
    /// Last freed last.
    pub(crate) free_texts: Vec<u64>,
    pub(crate) text_bytes: u64,
    /// Namespace, local.
    pub(crate) names: Vec<(Bytes, Bytes)>,
    pub(crate) name_bytes: u64,
    /// The order words while the order is current.
    pub(crate) order: Option<Vec<u64>>,
}

#[derive(Clone, Debug, Default, PartialEq, Eq)]
pub(crate) struct ArenaState {
    pub(crate) length: u64,
    /// Capacity by start, those that are not 0.
    pub(crate) records: BTreeMap<u64, u64>,
}

#[derive(Clone, Debug, PartialEq, Eq)]
pub(crate) struct Slot {
    pub(crate) generation: u64,
    /// None for a free slot, whose words nothing reads.
    pub(crate) node: Option<Node>,
}

#[derive(Clone, Debug, PartialEq, Eq)]
pub(crate) struct Node {
    pub(crate) data: Data,
    pub(crate) parent: Option<NodeId>,
    /// By arena; only elements have an attribute and a namespace block.
    pub(crate) blocks: [Option<Block>; 3],
}

#[derive(Clone, Debug, PartialEq, Eq)]
pub(crate) enum Data {
    Root,
    Element { name: u64 },
    Attr { name: u64, value: Text },
    Text(Text),
    Comment(Text),
    Namespace { prefix: Text, uri: Text },
    Pi { target: Text, data: Text },
}

/// A text field: its text slot, none where the text was stored empty.
#[derive(Clone, Debug, PartialEq, Eq)]
pub(crate) struct Text {
    pub(crate) slot: Option<u64>,
    pub(crate) bytes: Bytes,
}

#[derive(Clone, Debug, PartialEq, Eq)]
pub(crate) struct Block {
    pub(crate) start: u64,
    pub(crate) len: u64,
    pub(crate) ids: Vec<NodeId>,
}

impl Data {
    pub(crate) fn texts(&self) -> Vec<&Text> {
        match self {
            Data::Root | Data::Element { .. } => Vec::new(),
            Data::Attr { value: text, .. } | Data::Text(text) | Data::Comment(text) => vec![text],
            Data::Namespace { prefix: first, uri: second } | Data::Pi { target: first, data: second } => {
                vec![first, second]
            }
        }
    }

    #[cfg(feature = "port")]
    pub(crate) fn texts_mut(&mut self) -> Vec<&mut Text> {
        match self {
            Data::Root | Data::Element { .. } => Vec::new(),
            Data::Attr { value: text, .. } | Data::Text(text) | Data::Comment(text) => vec![text],
            Data::Namespace { prefix: first, uri: second } | Data::Pi { target: first, data: second } => {
                vec![first, second]
            }
        }
    }

    /// The arena of the block in which a parent lists a node of this kind.
    pub(crate) fn listed_in(&self) -> Arena {
        match self {
            Data::Attr { .. } => Arena::Attributes,
            Data::Namespace { .. } => Arena::Namespaces,
            _ => Arena::Children,
        }
    }
}

impl State {
    pub(crate) fn of(document: &Document) -> State {
        let texts: Vec<Bytes> = document.expanded.iter().map(|t| t.clone().into_bytes()).collect();
        let names: Vec<(Bytes, Bytes)> = document
            .names
            .iter()
            .map(|name| (name.namespace.clone().unwrap_or_default().into(), name.local.clone().into()))
            .collect();
        State {
            slots: (0..document.nodes.len()).map(|i| slot(document, i)).collect(),
            free: document.free_slots.iter().map(|i| u64::from(*i)).collect(),
            arenas: Arena::ALL.map(|arena| arena_state(document, arena)),
            text_bytes: texts.iter().map(|text| text.len() as u64).sum(),
            texts,
            free_texts: document.free_expanded.iter().map(|i| u64::from(*i)).collect(),
            name_bytes: names.iter().map(|(ns, local)| (ns.len() + local.len()) as u64).sum(),
            names,
            order: order(document),
        }
    }
}

/// A fresh document's table is empty in the Rust, which then answers the Root's key from its index.
fn order(document: &Document) -> Option<Vec<u64>> {
    match (document.is_order_dirty(), document.order.as_slice()) {
        (true, _) => None,
        (false, []) => Some(vec![0]),
        (false, words) => Some(words.iter().map(|word| u64::from(*word)).collect()),
    }
}

fn slot(document: &Document, index: usize) -> Slot {
    let generation = document.generations[index];
    let id = NodeId { index: index as u32, generation };
    let node = document.resolve(id).map(|node| Node {
        data: data(document, &node.data),
        parent: node.parent,
        blocks: Arena::ALL.map(|arena| block(document, id, arena)),
    });
    Slot { generation: u64::from(generation), node }
}

fn data(document: &Document, data: &NodeData) -> Data {
    let text = |chars: &Chars| text(document, *chars);
    match data {
        NodeData::Root => Data::Root,
        NodeData::Element { name, .. } => Data::Element { name: u64::from(name.0) },
        NodeData::Attr { name, value } => Data::Attr { name: u64::from(name.0), value: text(value) },
        NodeData::Text(chars) => Data::Text(text(chars)),
        NodeData::Comment(chars) => Data::Comment(text(chars)),
        NodeData::Namespace { prefix, uri } => Data::Namespace { prefix: text(prefix), uri: text(uri) },
        NodeData::ProcessingInstruction { target, data } => Data::Pi { target: text(target), data: text(data) },
    }
}

fn text(document: &Document, chars: Chars) -> Text {
    let slot = match chars {
        Chars::Expanded(slot) => Some(u64::from(slot)),
        Chars::Span(..) => None,
    };
    Text { slot, bytes: document.chars(chars).as_bytes().to_vec() }
}

fn block(document: &Document, id: NodeId, arena: Arena) -> Option<Block> {
    let (start, len) = block_of(document, id, arena)?;
    let ids = match arena {
        Arena::Children => document.children(id),
        Arena::Attributes => document.attribute_nodes(id),
        Arena::Namespaces => document.namespace_nodes(id),
    };
    Some(Block { start, len, ids: ids.to_vec() })
}

fn arena_state(document: &Document, arena: Arena) -> ArenaState {
    ArenaState { length: arena_length(document, arena), records: records(document, arena) }
}

/// The range of a node's block; none where the handle doesn't resolve or the kind has no such block.
pub(crate) fn block_of(document: &Document, id: NodeId, arena: Arena) -> Option<(u64, u64)> {
    let node = document.resolve(id)?;
    let (start, len) = match (arena, &node.data) {
        (Arena::Children, _) => node.children,
        (Arena::Attributes, NodeData::Element { attributes, .. }) => *attributes,
        (Arena::Namespaces, NodeData::Element { namespaces, .. }) => *namespaces,
        _ => return None,
    };
    Some((u64::from(start), u64::from(len)))
}

pub(crate) fn arena_length(document: &Document, arena: Arena) -> u64 {
    let ids = match arena {
        Arena::Children => &document.child_ids,
        Arena::Attributes => &document.attr_ids,
        Arena::Namespaces => &document.ns_ids,
    };
    ids.len() as u64
}

/// The capacity records of an arena.
pub(crate) fn records(document: &Document, arena: Arena) -> BTreeMap<u64, u64> {
    match arena {
        Arena::Children => shown_records(&document.child_caps),
        Arena::Attributes => shown_records(&document.attr_caps),
        Arena::Namespaces => shown_records(&document.ns_caps),
    }
}

/// The map in `Caps` is private to blocks.rs, which is compiled as it stands: its derived `Debug`, `Caps({4: 4, 8: 4})`, is the one way to read it.
fn shown_records(caps: &impl Debug) -> BTreeMap<u64, u64> {
    let shown = format!("{caps:?}");
    let inner = shown.strip_prefix("Caps({").and_then(|rest| rest.strip_suffix("})"));
    let inner = inner.expect("Caps is shown as a map");
    inner.split(", ").filter(|record| !record.is_empty()).map(record).collect()
}

fn record(shown: &str) -> (u64, u64) {
    let (start, capacity) = shown.split_once(": ").expect("a record is shown as start: capacity");
    let number = |word: &str| word.parse().expect("a record holds numbers");
    (number(start), number(capacity))
}
