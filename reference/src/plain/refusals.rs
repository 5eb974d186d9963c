//! Which calls the plain tree refuses.

use super::{Birth, Plain, PlainKind, pair};
use crate::calls::Call;
use crate::chars;
use crate::driver::{NOT_UTF8, ORDER_STALE};
use crate::tree::NodeId;

impl Plain {
    /// 1, then the Rust's own in its order, and behind them the prefix bound to nothing, which the Rust accepts.
    pub(super) fn refusal(&self, call: &Call) -> Option<u8> {
        let texts: Result<Vec<&str>, _> = call.bytes().into_iter().map(std::str::from_utf8).collect();
        let Ok(texts) = texts else {
            return Some(NOT_UTF8);
        };
        self.appending(call, &texts).or_else(|| self.other(call, &texts))
    }

    /// Of the four calls that make a child.
    fn appending(&self, call: &Call, texts: &[&str]) -> Option<u8> {
        match (call, texts) {
            (Call::AppendElement { parent, .. }, [namespace, local]) => self
                .not_container(*parent)
                .or_else(|| self.second_root(*parent, None))
                .or_else(|| unless(chars::is_ncname(local), 2))
                .or_else(|| bad_uri(namespace)),
            (Call::AppendText { parent, .. }, [text]) => {
                self.not_container(*parent).or_else(|| self.bad_text(self.resolve(*parent), text))
            }
            (Call::AppendComment { parent, .. }, [text]) => {
                self.not_container(*parent).or_else(|| unless(chars::is_comment(text), 3))
            }
            (Call::AppendPi { parent, .. }, [target, data]) => self
                .not_container(*parent)
                .or_else(|| unless(chars::is_target(target), 2))
                .or_else(|| unless(chars::is_data(data), 3)),
            _ => None,
        }
    }

    fn other(&self, call: &Call, texts: &[&str]) -> Option<u8> {
        match (call, texts) {
            (Call::SetText { node, .. }, [text]) => {
                self.not_text(*node).or_else(|| self.bad_text(self.parent(*node), text))
            }
            (Call::SetAttribute { element, .. }, [namespace, local, value]) => {
                self.bad_attribute(*element, namespace, local, value)
            }
            (Call::RemoveAttribute { element, .. }, _) => self.not_element(*element),
            (Call::DeclareNamespace { element, .. }, [prefix, uri]) => self
                .not_element(*element)
                .or_else(|| unless(chars::is_prefix(prefix), 2))
                .or_else(|| bad_uri(uri))
                .or_else(|| unless(*uri != chars::XML, 2))
                .or_else(|| unless(prefix.is_empty() || !uri.is_empty(), 2)),
            (Call::Remove(node), _) => match self.kind(*node) {
                None => Some(6),
                Some(PlainKind::Root) => Some(11),
                Some(_) => None,
            },
            (Call::Detach(node), _) => self.not_child(*node),
            (Call::Reparent { node, parent } | Call::InsertAt { parent, child: node, .. }, _) => {
                self.bad_move(*node, *parent)
            }
            (Call::OrderKey(node), _) => unless(self.resolve(*node).is_none() || self.keys.is_some(), ORDER_STALE),
            _ => None,
        }
    }

    fn not_container(&self, handle: NodeId) -> Option<u8> {
        match self.kind(handle) {
            None => Some(6),
            Some(PlainKind::Root | PlainKind::Element(_)) => None,
            Some(_) => Some(8),
        }
    }

    fn not_element(&self, handle: NodeId) -> Option<u8> {
        match self.kind(handle) {
            None => Some(6),
            Some(PlainKind::Element(_)) => None,
            Some(_) => Some(7),
        }
    }

    fn not_child(&self, handle: NodeId) -> Option<u8> {
        match self.kind(handle) {
            None => Some(6),
            Some(PlainKind::Root) => Some(11),
            Some(PlainKind::Attr(..) | PlainKind::Namespace(..)) => Some(9),
            Some(_) => None,
        }
    }

    fn not_text(&self, handle: NodeId) -> Option<u8> {
        match self.kind(handle) {
            None => Some(6),
            Some(PlainKind::Text(_)) => None,
            Some(_) => Some(10),
        }
    }

    /// An element under the Root beside another; `moved` is the one that comes there, where it is no new one.
    fn second_root(&self, parent: NodeId, moved: Option<Birth>) -> Option<u8> {
        let other = self.root_element().is_some_and(|birth| Some(birth) != moved);
        unless(self.resolve(parent) != Some(0) || !other, 12)
    }

    fn bad_text(&self, parent: Option<Birth>, text: &str) -> Option<u8> {
        unless(chars::is_text(text) && (parent != Some(0) || chars::is_root_text(text)), 3)
    }

    /// The name is tested last, and not at all where the value of an equal pair is replaced.
    fn bad_attribute(&self, element: NodeId, namespace: &str, local: &str, value: &str) -> Option<u8> {
        let name = pair(namespace.as_bytes(), local.as_bytes());
        self.not_element(element)
            .or_else(|| bad_uri(namespace))
            .or_else(|| unless(!namespace.is_empty() || local != "xmlns", 2))
            .or_else(|| unless(chars::is_text(value), 3))
            .or_else(|| {
                let known = self.attribute(self.live(element), &name).is_some();
                unless(known || chars::is_ncname(local), 2)
            })
    }

    fn bad_move(&self, node: NodeId, parent: NodeId) -> Option<u8> {
        self.not_child(node).or_else(|| self.not_container(parent)).or_else(|| {
            let (birth, parent_birth) = (self.live(node), self.live(parent));
            unless(!self.is_at_or_below(parent_birth, birth), 13).or_else(|| match &self.nodes[birth].kind {
                PlainKind::Element(_) => self.second_root(parent, Some(birth)),
                PlainKind::Text(text) => {
                    let text = std::str::from_utf8(text).expect("stored texts are UTF-8");
                    self.bad_text(Some(parent_birth), text)
                }
                _ => None,
            })
        })
    }

    fn is_at_or_below(&self, birth: Birth, top: Birth) -> bool {
        std::iter::successors(Some(birth), |b| self.nodes[*b].parent).any(|b| b == top)
    }
}

fn unless(holds: bool, number: u8) -> Option<u8> {
    if holds { None } else { Some(number) }
}

fn bad_uri(uri: &str) -> Option<u8> {
    unless(chars::is_text(uri), 3).or_else(|| unless(uri != chars::XMLNS, 2))
}
