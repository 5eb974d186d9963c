//! The port behind the same lines, through its static library.

use crate::answers::{Answer, Kind, Range};
use crate::calls::{Call, Line, optional_bytes};
use crate::driver::BAD_BUFFERS;
use crate::dump;
use crate::limits::{Limits, OWN};
use crate::memory::Memory;
use crate::tree::NodeId;
use oxml_lent::{Document, NodeKind, Record, Refusal};

/// A record, and the buffers that are lent to each call.
#[derive(Clone)]
pub(crate) struct Port {
    pub(crate) record: Record,
    pub(crate) memory: Vec<u64>,
    pub(crate) scratch: Vec<u64>,
}

pub(crate) fn lent_limits(limits: &Limits) -> oxml_lent::Limits {
    let [nodes, children, attributes, namespaces, texts, text_bytes, names, name_bytes] = limits.numbers();
    oxml_lent::Limits { nodes, children, attributes, namespaces, texts, text_bytes, names, name_bytes }
}

impl Port {
    /// With buffers that fit the limits and no more.
    pub(crate) fn fresh(limits: &Limits) -> Result<Port, Refusal> {
        let limits = lent_limits(limits);
        let (mut memory, mut scratch) = (vec![0; limits.document_words()], vec![0; limits.scratch_words()]);
        let record = Document::empty(&limits, &mut memory, &mut scratch)?.record();
        Ok(Port { record, memory, scratch })
    }

    pub(crate) fn document(&mut self) -> Document<'_> {
        Document::resume(self.record, &mut self.memory, &mut self.scratch)
    }

    pub(crate) fn call(&mut self, call: &Call) -> Answer {
        let mut document = self.document();
        let answer = apply(&mut document, call);
        self.record = document.record();
        answer
    }

    /// A line of a list; buffers fit `OWN`, so that other limits are judged as the reference judges them.
    pub(crate) fn answer(&mut self, line: &Line) -> Answer {
        match line {
            Line::Call(call) => self.call(call),
            Line::Fresh => self.restart(&OWN),
            Line::Limits(limits) if limits.start_accepts() => self.restart(limits),
            Line::Limits(_) => Answer::Refused(BAD_BUFFERS),
            Line::Ranges(node) => self.ranges(*node),
            Line::Dump => {
                let state = self.laid_out().state().expect("the limits of a document that was started");
                Answer::Dump(dump::write(&state))
            }
        }
    }

    fn restart(&mut self, limits: &Limits) -> Answer {
        match Port::fresh(limits) {
            Ok(port) => {
                *self = port;
                Answer::Done
            }
            Err(why) => Answer::Refused(why.number()),
        }
    }

    fn ranges(&mut self, node: NodeId) -> Answer {
        let document = self.document();
        let children = shown_range(document.range(oxml_lent::Arena::Children, lent(node)).unwrap_or_default());
        match document.data(lent(node)) {
            Ok(None) => Answer::Nothing,
            Ok(Some(oxml_lent::NodeData::Element { attributes, namespaces, .. })) => {
                Answer::Ranges([children, shown_range(attributes), shown_range(namespaces)].map(Some))
            }
            Ok(Some(_)) => Answer::Ranges([Some(children), None, None]),
            Err(why) => Answer::Refused(why.number()),
        }
    }

    /// What the independent check of the rules judges.
    pub(crate) fn laid_out(&self) -> Memory {
        let Record(words) = self.record;
        Memory {
            limits: words[..8].try_into().expect("eight limits"),
            counts: words[8..18].try_into().expect("ten counts"),
            current: words[18] != 0,
            words: self.memory.clone(),
        }
    }
}

pub(crate) fn lent(id: NodeId) -> oxml_lent::NodeId {
    oxml_lent::NodeId { index: id.index, generation: id.generation }
}

pub(crate) fn handle(id: oxml_lent::NodeId) -> NodeId {
    NodeId { index: id.index, generation: id.generation }
}

fn shown_range(range: oxml_lent::Range) -> Range {
    let narrow = |word: u64| u32::try_from(word).unwrap_or(u32::MAX);
    (narrow(range.start), narrow(range.len))
}

/// A call of the port.
pub(crate) fn apply(document: &mut Document, call: &Call) -> Answer {
    edit(document, call).unwrap_or_else(|| show(document, call)).unwrap_or_else(|why| Answer::Refused(why.number()))
}

fn edit(document: &mut Document, call: &Call) -> Option<Result<Answer, Refusal>> {
    Some(match call {
        Call::AppendElement { parent, namespace, local } => {
            document.append_element(lent(*parent), namespace.as_ref(), local).map(made)
        }
        Call::AppendText { parent, text } => document.append_text(lent(*parent), text).map(made),
        Call::AppendComment { parent, text } => document.append_comment(lent(*parent), text).map(made),
        Call::AppendPi { parent, target, data } => document.append_pi(lent(*parent), target, data).map(made),
        Call::SetText { node, text } => document.set_text(lent(*node), text).map(done),
        Call::SetAttribute { element, namespace, local, value } => {
            document.set_attribute(lent(*element), namespace.as_ref(), local, value).map(done)
        }
        Call::RemoveAttribute { element, namespace, local } => {
            document.remove_attribute(lent(*element), namespace.as_ref(), local).map(Answer::Truth)
        }
        Call::DeclareNamespace { element, prefix, uri } => {
            document.declare_namespace(lent(*element), Some(optional_bytes(prefix)), uri).map(made)
        }
        Call::Remove(node) => document.remove(lent(*node)).map(done),
        Call::Detach(node) => document.detach(lent(*node)).map(done),
        Call::Reparent { node, parent } => document.reparent(lent(*node), lent(*parent)).map(done),
        Call::InsertAt { parent, index, child } => document.insert_at(lent(*parent), *index, lent(*child)).map(done),
        Call::DocumentOrder => document.document_order().map(|()| Answer::Order(narrow(&document.order_words()))),
        Call::Compact => document.compact().map(done),
        _ => return None,
    })
}

fn show(document: &Document, call: &Call) -> Result<Answer, Refusal> {
    let list = |ids: Vec<oxml_lent::NodeId>| Answer::List(ids.into_iter().map(handle).collect());
    let node = |id: Option<oxml_lent::NodeId>| id.map_or(Answer::Nothing, made);
    match call {
        Call::Root => document.root().map(made),
        Call::RootElement => document.root_element().map(node),
        Call::Nodes => document.nodes().map(list),
        Call::Kind(id) => document.kind(lent(*id)).map(|kind| kind.map_or(Answer::Nothing, shown_kind)),
        Call::Parent(id) => document.parent(lent(*id)).map(node),
        Call::Children(id) => document.children(lent(*id)).map(list),
        Call::IsElement(id) => document.is_element(lent(*id)).map(Answer::Truth),
        Call::AttributeNodes(id) => document.attribute_nodes(lent(*id)).map(list),
        Call::NamespaceNodes(id) => document.namespace_nodes(lent(*id)).map(list),
        Call::Descendants(id) => descendants(document, lent(*id)).map(list),
        Call::OrderKey(id) => {
            let key = |key: Option<u64>| key.map_or(Answer::Nothing, |key| Answer::Key(narrow(&[key])[0]));
            document.order_key(lent(*id)).map(key)
        }
        Call::Name(number) => {
            let name = |(namespace, local)| Answer::Name(namespace, local);
            document.name(*number).map(|known| known.map_or(Answer::Nothing, name))
        }
        _ => unreachable!("every other call is an edit"),
    }
}

/// All at once, and step by step: both must list the same.
fn descendants(document: &Document, id: oxml_lent::NodeId) -> Result<Vec<oxml_lent::NodeId>, Refusal> {
    let (listed, walk) = (document.list_below(id), document.descendants_of(id));
    assert_eq!(listed, walk.map(Iterator::collect), "list_below, and descendants_of step by step");
    listed
}

fn shown_kind(kind: NodeKind) -> Answer {
    let number = |name: u64| narrow(&[name])[0];
    Answer::Kind(match kind {
        NodeKind::Root => Kind::Root,
        NodeKind::Element { name, attributes, namespaces } => Kind::Element {
            name: number(name),
            attributes: shown_range(attributes),
            namespaces: shown_range(namespaces),
        },
        NodeKind::Attr { name, value } => Kind::Attr { name: number(name), value },
        NodeKind::Text(text) => Kind::Text(text),
        NodeKind::Comment(text) => Kind::Comment(text),
        NodeKind::Namespace { prefix, uri } => Kind::Namespace { prefix, uri },
        NodeKind::ProcessingInstruction { target, data } => Kind::Pi { target, data },
    })
}

fn made(id: oxml_lent::NodeId) -> Answer {
    Answer::Handle(handle(id))
}

fn done((): ()) -> Answer {
    Answer::Done
}

/// Words of 32 bits, as the order's are in memory that is not damaged.
fn narrow(words: &[u64]) -> Vec<u32> {
    words.iter().map(|word| u32::try_from(*word).unwrap_or(u32::MAX)).collect()
}
