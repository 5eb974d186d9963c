//! The plain tree of document 01: births, lists and texts, no slots, blocks or pools. A second oracle beside the originals.

mod compare;
mod refusals;

use crate::answers::Answer;
use crate::calls::{Bytes, Call, optional_bytes};
use crate::driver::FULL;
use crate::state::Arena;
use crate::tree::{Document, NodeId};
use std::collections::HashMap;

/// The Root's birth is 0, the next node's 1.
type Birth = usize;
type Name = (Bytes, Bytes);

#[derive(Clone, Debug, PartialEq, Eq)]
pub(crate) enum PlainKind {
    Root,
    Element(Name),
    Attr(Name, Bytes),
    Text(Bytes),
    Comment(Bytes),
    Namespace(Bytes, Bytes),
    Pi(Bytes, Bytes),
}

#[derive(Clone, Debug)]
struct PlainNode {
    kind: PlainKind,
    parent: Option<Birth>,
    lists: [Vec<Birth>; 3],
    live: bool,
}

/// What the tree answers; a handle is a birth.
#[derive(Debug, PartialEq, Eq)]
enum Said {
    Refused(u8),
    Done,
    Node(Birth),
    Truth(bool),
    Nothing,
    List(Vec<Birth>),
    /// All nodes, in any order.
    Set(Vec<Birth>),
    Order,
    Key(u32),
    Kind(PlainKind),
}

pub(crate) struct Plain {
    nodes: Vec<PlainNode>,
    /// The handle of each birth, and back.
    handles: Vec<NodeId>,
    births: HashMap<NodeId, Birth>,
    /// Keys by birth while the order is current; no key for a node outside.
    keys: Option<Vec<Option<u32>>>,
}

impl Plain {
    pub(crate) fn fresh(root: NodeId) -> Self {
        let mut plain = Plain { nodes: Vec::new(), handles: Vec::new(), births: HashMap::new(), keys: None };
        plain.born(PlainKind::Root, None);
        plain.given(root);
        plain.renew();
        plain
    }

    /// One call with the answer that it got and the document after it; what differs, if anything does.
    pub(crate) fn step(&mut self, call: &Call, answer: &Answer, after: &Document) -> Result<(), String> {
        let said = match self.refusal(call) {
            Some(number) => Said::Refused(number),
            // No step of the tree.
            None if *answer == Answer::Refused(FULL) => return Ok(()),
            None => self.accepted(call),
        };
        if self.handles.len() < self.nodes.len() {
            self.given(birth_handle(call, answer, after)?);
        }
        if self.agrees(&said, answer, after) { Ok(()) } else { Err(format!("the plain tree says {said:?}")) }
    }

    fn resolve(&self, handle: NodeId) -> Option<Birth> {
        self.births.get(&handle).copied().filter(|birth| self.nodes[*birth].live)
    }

    fn kind(&self, handle: NodeId) -> Option<&PlainKind> {
        self.resolve(handle).map(|birth| &self.nodes[birth].kind)
    }

    /// A handle of an accepted call, or of one whose answer needs it to be live.
    fn live(&self, handle: NodeId) -> Birth {
        self.resolve(handle).expect("an accepted call names live nodes")
    }

    // ---- edits

    fn born(&mut self, kind: PlainKind, parent: Option<Birth>) -> Birth {
        let birth = self.nodes.len();
        let list = list_of(&kind);
        self.nodes.push(PlainNode { kind, parent, lists: Default::default(), live: true });
        if let Some(parent) = parent {
            self.nodes[parent].lists[list].push(birth);
        }
        self.keys = None;
        birth
    }

    fn given(&mut self, handle: NodeId) {
        self.births.insert(handle, self.handles.len());
        self.handles.push(handle);
    }

    fn append(&mut self, parent: NodeId, kind: PlainKind) -> Said {
        let parent = self.live(parent);
        Said::Node(self.born(kind, Some(parent)))
    }

    fn unlink(&mut self, birth: Birth) {
        if let Some(parent) = self.nodes[birth].parent.take() {
            let list = list_of(&self.nodes[birth].kind);
            self.nodes[parent].lists[list].retain(|other| *other != birth);
        }
        self.keys = None;
    }

    fn gone(&mut self, birth: Birth) {
        let mut below = vec![birth];
        while let Some(next) = below.pop() {
            self.nodes[next].live = false;
            below.extend(self.nodes[next].lists.concat());
        }
    }

    fn remove(&mut self, birth: Birth) {
        self.unlink(birth);
        self.gone(birth);
    }

    fn insert(&mut self, node: NodeId, parent: NodeId, index: u64) -> Said {
        let (birth, parent) = (self.live(node), self.live(parent));
        self.unlink(birth);
        self.nodes[birth].parent = Some(parent);
        let children = &mut self.nodes[parent].lists[Arena::Children as usize];
        let at = usize::try_from(index).unwrap_or(usize::MAX).min(children.len());
        children.insert(at, birth);
        Said::Done
    }

    fn attribute(&self, element: Birth, name: &Name) -> Option<Birth> {
        let attributes = &self.nodes[element].lists[Arena::Attributes as usize];
        attributes
            .iter()
            .copied()
            .find(|birth| matches!(&self.nodes[*birth].kind, PlainKind::Attr(other, _) if other == name))
    }

    fn namespace(&self, element: Birth, prefix: &[u8]) -> Option<Birth> {
        let namespaces = &self.nodes[element].lists[Arena::Namespaces as usize];
        namespaces
            .iter()
            .copied()
            .find(|birth| matches!(&self.nodes[*birth].kind, PlainKind::Namespace(other, _) if other == prefix))
    }

    fn set_attribute(&mut self, element: NodeId, name: Name, value: &Bytes) -> Said {
        let parent = self.live(element);
        match self.attribute(parent, &name) {
            Some(birth) => self.nodes[birth].kind = PlainKind::Attr(name, value.clone()),
            None => drop(self.born(PlainKind::Attr(name, value.clone()), Some(parent))),
        }
        Said::Done
    }

    fn declare_namespace(&mut self, element: NodeId, prefix: Bytes, uri: &Bytes) -> Said {
        let parent = self.live(element);
        match self.namespace(parent, &prefix) {
            Some(birth) => {
                self.nodes[birth].kind = PlainKind::Namespace(prefix, uri.clone());
                Said::Node(birth)
            }
            None => Said::Node(self.born(PlainKind::Namespace(prefix, uri.clone()), Some(parent))),
        }
    }

    fn remove_attribute(&mut self, element: NodeId, name: &Name) -> Said {
        let found = self.attribute(self.live(element), name);
        if let Some(birth) = found {
            self.remove(birth);
        }
        Said::Truth(found.is_some())
    }

    fn set_text(&mut self, node: NodeId, text: &Bytes) -> Said {
        let birth = self.live(node);
        self.nodes[birth].kind = PlainKind::Text(text.clone());
        Said::Done
    }

    /// A call that isn't refused.
    fn accepted(&mut self, call: &Call) -> Said {
        match call {
            Call::AppendElement { parent, namespace, local } => {
                self.append(*parent, PlainKind::Element(pair(optional_bytes(namespace), local)))
            }
            Call::AppendText { parent, text } => self.append(*parent, PlainKind::Text(text.clone())),
            Call::AppendComment { parent, text } => self.append(*parent, PlainKind::Comment(text.clone())),
            Call::AppendPi { parent, target, data } => {
                self.append(*parent, PlainKind::Pi(target.clone(), data.clone()))
            }
            Call::SetText { node, text } => self.set_text(*node, text),
            Call::SetAttribute { element, namespace, local, value } => {
                self.set_attribute(*element, pair(optional_bytes(namespace), local), value)
            }
            Call::RemoveAttribute { element, namespace, local } => {
                self.remove_attribute(*element, &pair(optional_bytes(namespace), local))
            }
            Call::DeclareNamespace { element, prefix, uri } => {
                self.declare_namespace(*element, optional_bytes(prefix).to_vec(), uri)
            }
            Call::Remove(node) => {
                self.remove(self.live(*node));
                Said::Done
            }
            Call::Detach(node) => {
                self.unlink(self.live(*node));
                Said::Done
            }
            Call::Reparent { node, parent } => self.insert(*node, *parent, u64::MAX),
            Call::InsertAt { parent, index, child } => self.insert(*child, *parent, *index),
            _ => self.shown(call),
        }
    }

    // ---- reading calls

    fn shown(&mut self, call: &Call) -> Said {
        let node = |birth: Option<Birth>| birth.map_or(Said::Nothing, Said::Node);
        match call {
            Call::DocumentOrder => {
                self.renew();
                Said::Order
            }
            Call::Compact => {
                self.renew();
                Said::Done
            }
            Call::Root => Said::Node(0),
            Call::RootElement => node(self.root_element()),
            Call::Nodes => Said::Set(self.births_alive()),
            Call::Kind(handle) => self.kind(*handle).map_or(Said::Nothing, |k| Said::Kind(k.clone())),
            Call::Parent(handle) => node(self.parent(*handle)),
            Call::Children(handle) => self.list(*handle, Arena::Children),
            Call::AttributeNodes(handle) => self.list(*handle, Arena::Attributes),
            Call::NamespaceNodes(handle) => self.list(*handle, Arena::Namespaces),
            Call::Descendants(handle) => self.descendants(*handle),
            Call::IsElement(handle) => Said::Truth(matches!(self.kind(*handle), Some(PlainKind::Element(_)))),
            Call::OrderKey(handle) => {
                let key = self.resolve(*handle).and_then(|birth| self.key(birth));
                key.map_or(Said::Nothing, Said::Key)
            }
            // `name` is no call of the plain tree.
            _ => Said::Nothing,
        }
    }

    fn births_alive(&self) -> Vec<Birth> {
        (0..self.nodes.len()).filter(|birth| self.nodes[*birth].live).collect()
    }

    fn list(&self, handle: NodeId, arena: Arena) -> Said {
        let birth = self.resolve(handle);
        Said::List(birth.map_or_else(Vec::new, |b| self.nodes[b].lists[arena as usize].clone()))
    }

    fn descendants(&self, handle: NodeId) -> Said {
        let mut list = Vec::new();
        if let Some(birth) = self.resolve(handle) {
            self.list_below(birth, &mut list);
        }
        Said::List(list)
    }

    /// Each child, then what is below it.
    fn list_below(&self, birth: Birth, list: &mut Vec<Birth>) {
        for child in &self.nodes[birth].lists[Arena::Children as usize] {
            list.push(*child);
            self.list_below(*child, list);
        }
    }

    fn key(&self, birth: Birth) -> Option<u32> {
        self.keys.as_ref()?[birth]
    }

    /// "Order: node, its namespaces, its attributes, then its children's subtrees."
    fn renew(&mut self) {
        let mut keys = vec![None; self.nodes.len()];
        let mut next = 0;
        let mut waiting = vec![0];
        while let Some(birth) = waiting.pop() {
            let [children, attributes, namespaces] = &self.nodes[birth].lists;
            for placed in std::iter::once(&birth).chain(namespaces).chain(attributes) {
                keys[*placed] = Some(next);
                next += 1;
            }
            waiting.extend(children.iter().rev());
        }
        self.keys = Some(keys);
    }

    fn parent(&self, handle: NodeId) -> Option<Birth> {
        self.nodes[self.resolve(handle)?].parent
    }

    fn root_element(&self) -> Option<Birth> {
        let children = &self.nodes[0].lists[Arena::Children as usize];
        children.iter().copied().find(|b| matches!(self.nodes[*b].kind, PlainKind::Element(_)))
    }
}

fn pair(namespace: &[u8], local: &[u8]) -> Name {
    (namespace.to_vec(), local.to_vec())
}

fn list_of(kind: &PlainKind) -> usize {
    let arena = match kind {
        PlainKind::Attr(..) => Arena::Attributes,
        PlainKind::Namespace(..) => Arena::Namespaces,
        _ => Arena::Children,
    };
    arena as usize
}

/// "The one answered, or where none is, the last in the list that the new node joined, read right after."
fn birth_handle(call: &Call, answer: &Answer, after: &Document) -> Result<NodeId, String> {
    match (call, answer) {
        (_, Answer::Handle(id)) => Ok(*id),
        (Call::SetAttribute { element, .. }, Answer::Done) => {
            after.attribute_nodes(*element).last().copied().ok_or_else(|| "the new attribute is in no list".to_string())
        }
        _ => Err("the plain tree has a birth, the answer no handle".to_string()),
    }
}
