//! The plain tree's answers beside the program's.

use super::{Birth, Plain, PlainKind, Said, pair};
use crate::answers::{Answer, Kind};
use crate::driver::shown_kind;
use crate::tree::{Document, NameId, NodeId};

impl Plain {
    pub(super) fn agrees(&self, said: &Said, answer: &Answer, after: &Document) -> bool {
        match (said, answer) {
            (Said::Refused(mine), Answer::Refused(theirs)) => mine == theirs,
            (Said::Done, Answer::Done) | (Said::Nothing, Answer::Nothing) => true,
            (Said::Node(birth), Answer::Handle(id)) => self.handles[*birth] == *id,
            (Said::Truth(mine), Answer::Truth(theirs)) => mine == theirs,
            (Said::List(births), Answer::List(ids)) => self.handles_of(births) == *ids,
            (Said::Set(births), Answer::List(ids)) => sorted(self.handles_of(births)) == sorted(ids.clone()),
            (Said::Order, Answer::Order(words)) => self.order_agrees(words),
            (Said::Key(mine), Answer::Key(theirs)) => mine == theirs,
            (Said::Kind(mine), Answer::Kind(theirs)) => Some(mine) == plain_kind(theirs, after).as_ref(),
            _ => false,
        }
    }

    fn handles_of(&self, births: &[Birth]) -> Vec<NodeId> {
        births.iter().map(|birth| self.handles[*birth]).collect()
    }

    /// A live node's key at its slot, 4,294,967,295 at every other.
    fn order_agrees(&self, words: &[u32]) -> bool {
        let mut due = vec![u32::MAX; words.len()];
        for birth in self.births_alive() {
            if let Some(word) = due.get_mut(self.handles[birth].index()) {
                *word = self.key(birth).unwrap_or(u32::MAX);
            }
        }
        due == words
    }

    /// "After the list each live node's kind, name, texts, parent, three lists and order key equal that tree's too."
    pub(crate) fn compare_all(&self, document: &Document) -> Result<(), String> {
        let alive = self.births_alive();
        if sorted(self.handles_of(&alive)) != sorted(document.nodes().collect()) {
            return Err("the live nodes differ from the plain tree's".to_string());
        }
        match alive.into_iter().find(|birth| !self.node_agrees(*birth, document)) {
            Some(birth) => Err(format!("{:?} differs from the plain tree's", self.handles[birth])),
            None => Ok(()),
        }
    }

    fn node_agrees(&self, birth: Birth, document: &Document) -> bool {
        let (node, id) = (&self.nodes[birth], self.handles[birth]);
        let [children, attributes, namespaces] = &node.lists;
        let kind = shown_kind(document, id);
        kind.and_then(|kind| plain_kind(&kind, document)).as_ref() == Some(&node.kind)
            && document.parent(id) == node.parent.map(|parent| self.handles[parent])
            && document.children(id) == self.handles_of(children)
            && document.attribute_nodes(id) == self.handles_of(attributes)
            && document.namespace_nodes(id) == self.handles_of(namespaces)
            && (self.keys.is_none() || document.order_key(id) == self.key(birth))
            && self.keys.is_some() != document.is_order_dirty()
    }
}

fn sorted(mut ids: Vec<NodeId>) -> Vec<NodeId> {
    ids.sort_unstable();
    ids
}

/// A kind with its name as the pair that the name's number shows.
fn plain_kind(kind: &Kind, document: &Document) -> Option<PlainKind> {
    let name = |number: u32| {
        let name = document.name(NameId(number))?;
        Some(pair(name.namespace.as_deref().unwrap_or_default().as_bytes(), name.local.as_bytes()))
    };
    Some(match kind.clone() {
        Kind::Root => PlainKind::Root,
        Kind::Element { name: number, .. } => PlainKind::Element(name(number)?),
        Kind::Attr { name: number, value } => PlainKind::Attr(name(number)?, value),
        Kind::Text(text) => PlainKind::Text(text),
        Kind::Comment(text) => PlainKind::Comment(text),
        Kind::Namespace { prefix, uri } => PlainKind::Namespace(prefix, uri),
        Kind::Pi { target, data } => PlainKind::Pi(target, data),
    })
}
