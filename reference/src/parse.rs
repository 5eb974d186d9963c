//! Reading the lines of a list. Whatever isn't exactly a line of the format is none: a list with a typing error is never half understood.

use crate::calls::{Bytes, Call, Line, Optional};
use crate::limits::Limits;
use crate::tree::NodeId;

/// The longest line, its newline not counted.
pub(crate) const LONGEST: usize = 262_144;

pub(crate) fn parse(line: &[u8]) -> Option<Line> {
    if line.len() > LONGEST {
        return None;
    }
    let text = std::str::from_utf8(line).ok()?;
    let words: Vec<&str> = text.split(' ').collect();
    edit(&words).or_else(|| reading(&words)).map(Line::Call).or_else(|| other(&words))
}

fn edit(words: &[&str]) -> Option<Call> {
    Some(match *words {
        ["append_element", parent, namespace, local] => {
            Call::AppendElement { parent: handle(parent)?, namespace: optional(namespace)?, local: bytes(local)? }
        }
        ["append_text", parent, text] => Call::AppendText { parent: handle(parent)?, text: bytes(text)? },
        ["append_comment", parent, text] => Call::AppendComment { parent: handle(parent)?, text: bytes(text)? },
        ["append_pi", parent, target, data] => {
            Call::AppendPi { parent: handle(parent)?, target: bytes(target)?, data: bytes(data)? }
        }
        ["set_text", node, text] => Call::SetText { node: handle(node)?, text: bytes(text)? },
        ["set_attribute", element, namespace, local, value] => Call::SetAttribute {
            element: handle(element)?,
            namespace: optional(namespace)?,
            local: bytes(local)?,
            value: bytes(value)?,
        },
        ["remove_attribute", element, namespace, local] => {
            Call::RemoveAttribute { element: handle(element)?, namespace: optional(namespace)?, local: bytes(local)? }
        }
        ["declare_namespace", element, prefix, uri] => {
            Call::DeclareNamespace { element: handle(element)?, prefix: optional(prefix)?, uri: bytes(uri)? }
        }
        ["remove", node] => Call::Remove(handle(node)?),
        ["detach", node] => Call::Detach(handle(node)?),
        ["reparent", node, parent] => Call::Reparent { node: handle(node)?, parent: handle(parent)? },
        ["insert_at", parent, index, child] => {
            Call::InsertAt { parent: handle(parent)?, index: number(index)?, child: handle(child)? }
        }
        ["document_order"] => Call::DocumentOrder,
        ["compact"] => Call::Compact,
        _ => return None,
    })
}

fn reading(words: &[&str]) -> Option<Call> {
    Some(match *words {
        ["root"] => Call::Root,
        ["root_element"] => Call::RootElement,
        ["nodes"] => Call::Nodes,
        ["kind", node] => Call::Kind(handle(node)?),
        ["parent", node] => Call::Parent(handle(node)?),
        ["children", node] => Call::Children(handle(node)?),
        ["is_element", node] => Call::IsElement(handle(node)?),
        ["attribute_nodes", node] => Call::AttributeNodes(handle(node)?),
        ["namespace_nodes", node] => Call::NamespaceNodes(handle(node)?),
        ["descendants", node] => Call::Descendants(handle(node)?),
        ["order_key", node] => Call::OrderKey(handle(node)?),
        ["name", name] => Call::Name(number(name)?),
        _ => return None,
    })
}

fn other(words: &[&str]) -> Option<Line> {
    Some(match *words {
        ["fresh"] => Line::Fresh,
        ["dump"] => Line::Dump,
        ["ranges", node] => Line::Ranges(handle(node)?),
        ["limits", ref limits @ ..] => {
            let numbers: Option<Vec<u64>> = limits.iter().map(|word| number(word)).collect();
            Line::Limits(Limits::from_numbers(&numbers?)?)
        }
        _ => return None,
    })
}

/// Digits alone, below 2^64: `parse` of the standard library would take a sign.
pub(crate) fn number(word: &str) -> Option<u64> {
    if word.bytes().all(|b| b.is_ascii_digit()) { word.parse().ok() } else { None }
}

pub(crate) fn handle(word: &str) -> Option<NodeId> {
    let (index, generation) = word.split_once(':')?;
    Some(NodeId { index: u32::try_from(number(index)?).ok()?, generation: u32::try_from(number(generation)?).ok()? })
}

pub(crate) fn bytes(word: &str) -> Option<Bytes> {
    let digits = word.strip_prefix('x')?.as_bytes();
    if !digits.len().is_multiple_of(2) {
        return None;
    }
    digits.chunks(2).map(|pair| Some(16 * digit(pair[0])? + digit(pair[1])?)).collect()
}

fn digit(byte: u8) -> Option<u8> {
    match byte {
        b'0'..=b'9' => Some(byte - b'0'),
        b'a'..=b'f' => Some(byte - b'a' + 10),
        _ => None,
    }
}

fn optional(word: &str) -> Option<Optional> {
    if word == "-" { Some(None) } else { bytes(word).map(Some) }
}
