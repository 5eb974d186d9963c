//! The originals, driven by the lines of a list.

use crate::answers::{Answer, Kind};
use crate::calls::{Call, Line, Optional};
use crate::dump;
use crate::limits::{self, Limits, OWN};
use crate::state::{Arena, State, block_of};
use crate::tree::{Document, NameId, NodeError, NodeId, NodeKind};

pub(crate) const NOT_UTF8: u8 = 1;
pub(crate) const BAD_BUFFERS: u8 = 4;
pub(crate) const FULL: u8 = 14;
pub(crate) const ORDER_STALE: u8 = 15;

/// A document of the Rust with the limits that the port would have.
#[derive(Clone)]
pub(crate) struct Reference {
    pub(crate) document: Document,
    pub(crate) limits: Limits,
}

impl Reference {
    pub(crate) fn fresh(limits: Limits) -> Self {
        Reference { document: Document::empty(), limits }
    }

    pub(crate) fn answer(&mut self, line: &Line) -> Answer {
        match line {
            Line::Call(call) => self.call(call),
            Line::Fresh => self.restart(OWN),
            Line::Limits(limits) if limits.start_accepts() => self.restart(*limits),
            Line::Limits(_) => Answer::Refused(BAD_BUFFERS),
            Line::Ranges(node) => ranges(&self.document, *node),
            Line::Dump => Answer::Dump(dump::write(&State::of(&self.document))),
        }
    }

    fn restart(&mut self, limits: Limits) -> Answer {
        *self = Reference::fresh(limits);
        Answer::Done
    }

    /// The order of refusals: 1, the Rust's own, 14. A call that lacks room is tried on a copy, for the Rust may refuse it before.
    pub(crate) fn call(&mut self, call: &Call) -> Answer {
        if call.bytes().iter().any(|bytes| std::str::from_utf8(bytes).is_err()) {
            return Answer::Refused(NOT_UTF8);
        }
        if limits::lacks(&self.document, &self.limits, call).is_empty() {
            return apply(&mut self.document, call);
        }
        match apply(&mut self.document.clone(), call) {
            Answer::Refused(number) => Answer::Refused(number),
            _ => Answer::Refused(FULL),
        }
    }
}

/// A call of the Rust whose bytes are UTF-8.
pub(crate) fn apply(document: &mut Document, call: &Call) -> Answer {
    edit(document, call).unwrap_or_else(|| show(document, call))
}

fn edit(document: &mut Document, call: &Call) -> Option<Answer> {
    Some(match call {
        Call::AppendElement { parent, namespace, local } => {
            made(document.append_element(*parent, optional(namespace), text(local)))
        }
        Call::AppendText { parent, text: given } => made(document.append_text(*parent, text(given))),
        Call::AppendComment { parent, text: given } => made(document.append_comment(*parent, text(given))),
        Call::AppendPi { parent, target, data } => made(document.append_pi(*parent, text(target), text(data))),
        Call::SetText { node, text: given } => done(document.set_text(*node, text(given))),
        Call::SetAttribute { element, namespace, local, value } => {
            done(document.set_attribute(*element, optional(namespace), text(local), text(value)))
        }
        Call::RemoveAttribute { element, namespace, local } => {
            found(document.remove_attribute(*element, optional(namespace), text(local)))
        }
        Call::DeclareNamespace { element, prefix, uri } => {
            made(document.declare_namespace(*element, optional(prefix), text(uri)))
        }
        Call::Remove(node) => done(document.remove(*node)),
        Call::Detach(node) => done(document.detach(*node)),
        Call::Reparent { node, parent } => done(document.reparent(*node, *parent)),
        Call::InsertAt { parent, index, child } => {
            let index = usize::try_from(*index).unwrap_or(usize::MAX);
            done(document.insert_at(*parent, index, *child))
        }
        Call::DocumentOrder => Answer::Order(document.document_order().to_vec()),
        Call::Compact => {
            document.compact();
            Answer::Done
        }
        _ => return None,
    })
}

fn show(document: &Document, call: &Call) -> Answer {
    match call {
        Call::Root => Answer::Handle(document.root()),
        Call::RootElement => some_handle(document.root_element()),
        Call::Nodes => Answer::List(document.nodes().collect()),
        Call::Kind(node) => shown_kind(document, *node).map_or(Answer::Nothing, Answer::Kind),
        Call::Parent(node) => some_handle(document.parent(*node)),
        Call::Children(node) => Answer::List(document.children(*node).to_vec()),
        Call::IsElement(node) => Answer::Truth(document.is_element(*node)),
        Call::AttributeNodes(node) => Answer::List(document.attribute_nodes(*node).to_vec()),
        Call::NamespaceNodes(node) => Answer::List(document.namespace_nodes(*node).to_vec()),
        Call::Descendants(node) => Answer::List(document.descendants_of(*node).collect()),
        Call::OrderKey(node) => order_key(document, *node),
        Call::Name(number) => name(document, *number),
        _ => unreachable!("every other call is an edit"),
    }
}

/// While the order isn't current the Rust shows an old key or none; the port refuses a live handle.
fn order_key(document: &Document, node: NodeId) -> Answer {
    if document.resolve(node).is_some() && document.is_order_dirty() {
        return Answer::Refused(ORDER_STALE);
    }
    document.order_key(node).map_or(Answer::Nothing, Answer::Key)
}

fn name(document: &Document, number: u64) -> Answer {
    let known = u32::try_from(number).ok().and_then(|number| document.name(NameId(number)));
    known.map_or(Answer::Nothing, |name| {
        Answer::Name(name.namespace.clone().unwrap_or_default().into(), name.local.clone().into())
    })
}

pub(crate) fn shown_kind(document: &Document, node: NodeId) -> Option<Kind> {
    let bytes = |text: &str| text.as_bytes().to_vec();
    Some(match document.kind(node)? {
        NodeKind::Root => Kind::Root,
        NodeKind::Element { name, attributes, namespaces } => Kind::Element { name: name.0, attributes, namespaces },
        NodeKind::Attr(attribute) => Kind::Attr { name: attribute.name.0, value: bytes(attribute.value) },
        NodeKind::Text(text) => Kind::Text(bytes(text)),
        NodeKind::Comment(text) => Kind::Comment(bytes(text)),
        NodeKind::Namespace { prefix, uri } => Kind::Namespace { prefix: bytes(prefix), uri: bytes(uri) },
        NodeKind::ProcessingInstruction { target, data } => Kind::Pi { target: bytes(target), data: bytes(data) },
    })
}

fn ranges(document: &Document, node: NodeId) -> Answer {
    if document.resolve(node).is_none() {
        return Answer::Nothing;
    }
    Answer::Ranges(Arena::ALL.map(|arena| {
        let (start, len) = block_of(document, node, arena)?;
        Some((u32::try_from(start).ok()?, u32::try_from(len).ok()?))
    }))
}

/// Document 01's number of a refusal.
fn number(error: NodeError) -> u8 {
    match error {
        NodeError::InvalidName => 2,
        NodeError::InvalidText => 3,
        NodeError::Stale => 6,
        NodeError::NotAnElement => 7,
        NodeError::NotAContainer => 8,
        NodeError::NotAChild => 9,
        NodeError::NotText => 10,
        NodeError::NotRemovable => 11,
        NodeError::RootElementExists => 12,
        NodeError::WouldCycle => 13,
    }
}

fn refused(error: NodeError) -> Answer {
    Answer::Refused(number(error))
}

fn made(result: Result<NodeId, NodeError>) -> Answer {
    result.map_or_else(refused, Answer::Handle)
}

fn done(result: Result<(), NodeError>) -> Answer {
    result.map_or_else(refused, |()| Answer::Done)
}

fn found(result: Result<bool, NodeError>) -> Answer {
    result.map_or_else(refused, Answer::Truth)
}

fn some_handle(node: Option<NodeId>) -> Answer {
    node.map_or(Answer::Nothing, Answer::Handle)
}

fn text(bytes: &[u8]) -> &str {
    std::str::from_utf8(bytes).expect("tested before the call")
}

fn optional(bytes: &Optional) -> Option<&str> {
    bytes.as_deref().map(text)
}
