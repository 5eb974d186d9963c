//! The calls of a list, as values, and the line of each.

use crate::answers::{handle, hex};
use crate::limits::Limits;
use crate::tree::NodeId;
use std::fmt;

pub(crate) type Bytes = Vec<u8>;

/// `None` is written `-` and `Some` of nothing `x`. The Rust is given the one that was written, so that a list shows whether they answer alike.
pub(crate) type Optional = Option<Bytes>;

#[derive(Clone, Debug, PartialEq, Eq)]
pub(crate) enum Call {
    AppendElement { parent: NodeId, namespace: Optional, local: Bytes },
    AppendText { parent: NodeId, text: Bytes },
    AppendComment { parent: NodeId, text: Bytes },
    AppendPi { parent: NodeId, target: Bytes, data: Bytes },
    SetText { node: NodeId, text: Bytes },
    SetAttribute { element: NodeId, namespace: Optional, local: Bytes, value: Bytes },
    RemoveAttribute { element: NodeId, namespace: Optional, local: Bytes },
    DeclareNamespace { element: NodeId, prefix: Optional, uri: Bytes },
    Remove(NodeId),
    Detach(NodeId),
    Reparent { node: NodeId, parent: NodeId },
    InsertAt { parent: NodeId, index: u64, child: NodeId },
    DocumentOrder,
    Compact,
    Root,
    RootElement,
    Nodes,
    Kind(NodeId),
    Parent(NodeId),
    Children(NodeId),
    IsElement(NodeId),
    AttributeNodes(NodeId),
    NamespaceNodes(NodeId),
    Descendants(NodeId),
    OrderKey(NodeId),
    Name(u64),
}

#[derive(Clone, Debug, PartialEq, Eq)]
pub(crate) enum Line {
    Call(Call),
    Fresh,
    Limits(Limits),
    Ranges(NodeId),
    Dump,
}

/// No namespace and the empty one are the same.
pub(crate) fn optional_bytes(bytes: &Optional) -> &[u8] {
    bytes.as_deref().unwrap_or_default()
}

impl Call {
    /// The word that a line of this call begins with.
    pub(crate) fn name(&self) -> &'static str {
        match self {
            Call::AppendElement { .. } => "append_element",
            Call::AppendText { .. } => "append_text",
            Call::AppendComment { .. } => "append_comment",
            Call::AppendPi { .. } => "append_pi",
            Call::SetText { .. } => "set_text",
            Call::SetAttribute { .. } => "set_attribute",
            Call::RemoveAttribute { .. } => "remove_attribute",
            Call::DeclareNamespace { .. } => "declare_namespace",
            Call::Remove(_) => "remove",
            Call::Detach(_) => "detach",
            Call::Reparent { .. } => "reparent",
            Call::InsertAt { .. } => "insert_at",
            Call::DocumentOrder => "document_order",
            Call::Compact => "compact",
            Call::Root => "root",
            Call::RootElement => "root_element",
            Call::Nodes => "nodes",
            Call::Kind(_) => "kind",
            Call::Parent(_) => "parent",
            Call::Children(_) => "children",
            Call::IsElement(_) => "is_element",
            Call::AttributeNodes(_) => "attribute_nodes",
            Call::NamespaceNodes(_) => "namespace_nodes",
            Call::Descendants(_) => "descendants",
            Call::OrderKey(_) => "order_key",
            Call::Name(_) => "name",
        }
    }

    /// The twelve edits, `document_order` and `compact`.
    pub(crate) fn is_edit(&self) -> bool {
        match self {
            Call::AppendElement { .. }
            | Call::AppendText { .. }
            | Call::AppendComment { .. }
            | Call::AppendPi { .. }
            | Call::SetText { .. }
            | Call::SetAttribute { .. }
            | Call::RemoveAttribute { .. }
            | Call::DeclareNamespace { .. }
            | Call::Remove(_)
            | Call::Detach(_)
            | Call::Reparent { .. }
            | Call::InsertAt { .. }
            | Call::DocumentOrder
            | Call::Compact => true,
            Call::Root
            | Call::RootElement
            | Call::Nodes
            | Call::Kind(_)
            | Call::Parent(_)
            | Call::Children(_)
            | Call::IsElement(_)
            | Call::AttributeNodes(_)
            | Call::NamespaceNodes(_)
            | Call::Descendants(_)
            | Call::OrderKey(_)
            | Call::Name(_) => false,
        }
    }

    /// The byte arguments, all of which are tested for UTF-8 before anything else.
    pub(crate) fn bytes(&self) -> Vec<&[u8]> {
        match self {
            Call::AppendElement { namespace, local, .. } | Call::RemoveAttribute { namespace, local, .. } => {
                vec![optional_bytes(namespace), local]
            }
            Call::AppendText { text, .. } | Call::AppendComment { text, .. } | Call::SetText { text, .. } => vec![text],
            Call::AppendPi { target, data, .. } => vec![target, data],
            Call::SetAttribute { namespace, local, value, .. } => {
                vec![optional_bytes(namespace), local, value]
            }
            Call::DeclareNamespace { prefix, uri, .. } => vec![optional_bytes(prefix), uri],
            _ => Vec::new(),
        }
    }
}

fn optional_hex(bytes: &Optional) -> String {
    bytes.as_ref().map_or_else(|| "-".to_string(), |b| hex(b))
}

/// The words behind the call's name.
fn arguments(call: &Call) -> Vec<String> {
    match call {
        Call::AppendElement { parent: node, namespace, local }
        | Call::RemoveAttribute { element: node, namespace, local } => {
            vec![handle(*node), optional_hex(namespace), hex(local)]
        }
        Call::AppendText { parent: node, text }
        | Call::AppendComment { parent: node, text }
        | Call::SetText { node, text } => vec![handle(*node), hex(text)],
        Call::AppendPi { parent, target, data } => vec![handle(*parent), hex(target), hex(data)],
        Call::SetAttribute { element, namespace, local, value } => {
            vec![handle(*element), optional_hex(namespace), hex(local), hex(value)]
        }
        Call::DeclareNamespace { element, prefix, uri } => {
            vec![handle(*element), optional_hex(prefix), hex(uri)]
        }
        Call::Reparent { node, parent } => vec![handle(*node), handle(*parent)],
        Call::InsertAt { parent, index, child } => {
            vec![handle(*parent), index.to_string(), handle(*child)]
        }
        Call::DocumentOrder | Call::Compact | Call::Root | Call::RootElement | Call::Nodes => Vec::new(),
        Call::Remove(node)
        | Call::Detach(node)
        | Call::Kind(node)
        | Call::Parent(node)
        | Call::Children(node)
        | Call::IsElement(node)
        | Call::AttributeNodes(node)
        | Call::NamespaceNodes(node)
        | Call::Descendants(node)
        | Call::OrderKey(node) => vec![handle(*node)],
        Call::Name(number) => vec![number.to_string()],
    }
}

impl fmt::Display for Call {
    fn fmt(&self, f: &mut fmt::Formatter<'_>) -> fmt::Result {
        f.write_str(self.name())?;
        for word in arguments(self) {
            write!(f, " {word}")?;
        }
        Ok(())
    }
}

impl fmt::Display for Line {
    fn fmt(&self, f: &mut fmt::Formatter<'_>) -> fmt::Result {
        match self {
            Line::Call(call) => call.fmt(f),
            Line::Fresh => f.write_str("fresh"),
            Line::Limits(limits) => write!(f, "limits {limits}"),
            Line::Ranges(node) => write!(f, "ranges {}", handle(*node)),
            Line::Dump => f.write_str("dump"),
        }
    }
}
