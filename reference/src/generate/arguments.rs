//! The arguments of a random call: nodes, places and bytes that mostly fit the document.

use super::Generator;
use crate::calls::{Bytes, Call, Optional, optional_bytes};
use crate::chars;
use crate::choose;
use crate::profiles::Act;
use crate::random::Random;
use crate::tree::{Document, NodeId, NodeKind};

impl Generator {
    /// A node by this choice, or at the profile's share a handle that doesn't resolve or any node.
    pub(super) fn node(&mut self, choice: fn(&Document, &mut Random) -> NodeId) -> NodeId {
        let document = &self.reference.document;
        if self.random.chance(self.profile.bad / 2) {
            choose::stale(document, &mut self.random)
        } else if self.random.chance(self.profile.bad / 2) {
            choose::any(document, &mut self.random)
        } else {
            choice(document, &mut self.random)
        }
    }

    /// Where a child goes: anywhere, deep, wide, or under the Root.
    fn parent(&mut self) -> NodeId {
        match self.random.below(20) {
            0 => self.document().root(),
            1..5 => choose::last_container(self.document()),
            5..8 => choose::widest(self.document()),
            _ => self.node(choose::container),
        }
    }

    /// The Root takes one element, so that one is most often put elsewhere.
    fn element_parent(&mut self) -> NodeId {
        let parent = self.parent();
        if parent == self.document().root() && self.random.chance(900) {
            return self.document().root_element().unwrap_or(parent);
        }
        parent
    }

    /// The call of an act that is one.
    pub(super) fn call(&mut self, act: Act) -> Call {
        match act {
            Act::Read => self.reading(),
            Act::Descendants => self.descendants(),
            Act::AppendElement => self.append_element(),
            Act::AppendText => self.append_text(),
            Act::AppendComment => {
                Call::AppendComment { parent: self.parent(), text: self.texts.literal(&mut self.random) }
            }
            Act::AppendPi => self.append_pi(),
            Act::SetText => self.set_text(),
            Act::SetAttribute => self.set_attribute(),
            Act::RemoveAttribute => self.remove_attribute(),
            Act::DeclareNamespace => self.declare_namespace(),
            Act::Remove => Call::Remove(self.node(choose::any)),
            Act::RemoveWidest => Call::Remove(choose::widest(self.document())),
            Act::Detach if self.random.chance(300) => Call::Detach(self.node(choose::detached)),
            Act::Detach => Call::Detach(self.node(choose::child)),
            Act::Reparent => {
                let (node, parent) = self.movement();
                Call::Reparent { node, parent }
            }
            Act::InsertAt => {
                let (child, parent) = self.movement();
                let len = self.document().children(parent).len();
                Call::InsertAt { parent, index: choose::index(&mut self.random, len), child }
            }
            Act::Compact => Call::Compact,
            _ => Call::DocumentOrder,
        }
    }

    fn append_element(&mut self) -> Call {
        let parent = self.element_parent();
        let namespace = self.texts.namespace(&mut self.random);
        Call::AppendElement { parent, namespace, local: self.texts.name(&mut self.random) }
    }

    fn append_text(&mut self) -> Call {
        let parent = self.parent();
        let blank = parent == self.document().root();
        Call::AppendText { parent, text: self.texts.text(&mut self.random, blank) }
    }

    fn append_pi(&mut self) -> Call {
        let parent = self.parent();
        let target = self.texts.name(&mut self.random);
        Call::AppendPi { parent, target, data: self.texts.literal(&mut self.random) }
    }

    fn set_text(&mut self) -> Call {
        let node = self.node(choose::text);
        let blank = self.document().parent(node) == Some(self.document().root());
        Call::SetText { node, text: self.texts.text(&mut self.random, blank) }
    }

    /// A node and where to: within its parent, below itself, or anywhere.
    fn movement(&mut self) -> (NodeId, NodeId) {
        let only = self.random.chance(150);
        let node = self.node(if only { choose::only_child } else { choose::child });
        let within = self.document().parent(node);
        match (self.random.below(20), within) {
            (0, _) => {
                let document = &self.reference.document;
                (node, choose::below(document, &mut self.random, node))
            }
            (1..9, Some(parent)) => (node, parent),
            (_, Some(parent)) if only => (node, parent),
            (9, _) => (node, self.document().root()),
            _ => (node, self.node(choose::container)),
        }
    }

    /// The name of an attribute that an element has.
    fn known_attribute(&mut self, element: NodeId) -> Option<(Optional, Bytes)> {
        let attributes = self.document().attribute_nodes(element).to_vec();
        if attributes.is_empty() || self.random.chance(500) {
            return None;
        }
        let id = self.random.pick(&attributes);
        let Some(NodeKind::Attr(attribute)) = self.document().kind(id) else {
            return None;
        };
        let name = self.document().name(attribute.name)?;
        Some((name.namespace.clone().map(String::into_bytes), name.local.clone().into_bytes()))
    }

    fn owner(&mut self) -> NodeId {
        if self.random.chance(600) { self.node(choose::owner) } else { self.node(choose::element) }
    }

    fn attribute_name(&mut self, element: NodeId) -> (Optional, Bytes) {
        self.known_attribute(element).unwrap_or_else(|| {
            let namespace = self.texts.namespace(&mut self.random);
            (namespace, self.texts.name(&mut self.random))
        })
    }

    fn set_attribute(&mut self) -> Call {
        let element = self.owner();
        let (namespace, local) = self.attribute_name(element);
        let value = self.texts.text(&mut self.random, false);
        Call::SetAttribute { element, namespace, local, value }
    }

    fn remove_attribute(&mut self) -> Call {
        let element = self.owner();
        let (namespace, local) = self.attribute_name(element);
        Call::RemoveAttribute { element, namespace, local }
    }

    fn declare_namespace(&mut self) -> Call {
        let element = self.owner();
        let prefix = self.texts.prefix(&mut self.random);
        let mut uri = self.texts.uri(&mut self.random);
        // The Rust binds a prefix to nothing, the port doesn't: such a call is in no list that both answer.
        while uri.is_empty() && may_be_bound(&prefix) {
            uri = self.texts.uri(&mut self.random);
        }
        Call::DeclareNamespace { element, prefix, uri }
    }

    /// Of the Root, the top of a detached tree, or any container.
    fn descendants(&mut self) -> Call {
        Call::Descendants(match self.random.below(10) {
            0 => self.document().root(),
            1..4 => self.node(choose::detached),
            _ => self.node(choose::container),
        })
    }

    fn reading(&mut self) -> Call {
        let node = self.node(choose::any);
        let container = self.node(choose::container);
        let owner = self.node(choose::owner);
        match self.random.below(13) {
            0 => Call::Root,
            1 => Call::RootElement,
            2 => Call::Nodes,
            3 => Call::Parent(node),
            4 | 5 => Call::Children(container),
            6 => Call::IsElement(node),
            7 => Call::AttributeNodes(owner),
            8 => Call::NamespaceNodes(owner),
            9 => {
                let count = self.document().names.len();
                Call::Name(choose::index(&mut self.random, count).min(u64::from(u32::MAX)))
            }
            10 => self.descendants(),
            _ => Call::Kind(node),
        }
    }
}

/// A prefix that isn't empty and is refused for no reason of its own.
fn may_be_bound(prefix: &Optional) -> bool {
    let prefix = std::str::from_utf8(optional_bytes(prefix));
    prefix.is_ok_and(|prefix| !prefix.is_empty() && chars::is_prefix(prefix))
}
