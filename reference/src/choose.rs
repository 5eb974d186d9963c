//! Choosing nodes and places in a document that is followed call by call, so that most calls are accepted.

use crate::random::Random;
use crate::tree::{Document, NodeData, NodeId};

fn data(document: &Document, id: NodeId) -> &NodeData {
    &document.resolve(id).expect("a live node").data
}

fn is_container(data: &NodeData) -> bool {
    matches!(data, NodeData::Root | NodeData::Element { .. })
}

fn is_child(data: &NodeData) -> bool {
    !matches!(data, NodeData::Root | NodeData::Attr { .. } | NodeData::Namespace { .. })
}

/// A live node that passes the test; the Root where none does.
fn live(document: &Document, random: &mut Random, test: impl Fn(&NodeData) -> bool) -> NodeId {
    let fit: Vec<NodeId> = document.nodes().filter(|id| test(data(document, *id))).collect();
    if fit.is_empty() { document.root() } else { random.pick(&fit) }
}

pub(crate) fn any(document: &Document, random: &mut Random) -> NodeId {
    live(document, random, |_| true)
}

pub(crate) fn element(document: &Document, random: &mut Random) -> NodeId {
    live(document, random, |data| matches!(data, NodeData::Element { .. }))
}

pub(crate) fn text(document: &Document, random: &mut Random) -> NodeId {
    live(document, random, |data| matches!(data, NodeData::Text(_)))
}

pub(crate) fn child(document: &Document, random: &mut Random) -> NodeId {
    live(document, random, is_child)
}

/// The top of a detached tree, where there is one.
pub(crate) fn detached(document: &Document, random: &mut Random) -> NodeId {
    let tops: Vec<NodeId> = document.nodes().skip(1).filter(|id| document.parent(*id).is_none()).collect();
    if tops.is_empty() { child(document, random) } else { random.pick(&tops) }
}

/// An only child, where there is one: moved within its parent, it empties the block and the block moves.
pub(crate) fn only_child(document: &Document, random: &mut Random) -> NodeId {
    let only = |id| match document.children(id) {
        [one] => Some(*one),
        _ => None,
    };
    let children: Vec<NodeId> = document.nodes().filter_map(only).collect();
    if children.is_empty() { child(document, random) } else { random.pick(&children) }
}

pub(crate) fn container(document: &Document, random: &mut Random) -> NodeId {
    live(document, random, is_container)
}

/// The last slot that holds a container: appending there again and again makes a deep tree.
pub(crate) fn last_container(document: &Document) -> NodeId {
    let last = document.nodes().filter(|id| is_container(data(document, *id))).last();
    last.unwrap_or_else(|| document.root())
}

/// The container with the most children: appending there again and again makes a wide tree.
pub(crate) fn widest(document: &Document) -> NodeId {
    let widest = document.nodes().max_by_key(|id| document.children(*id).len());
    widest.unwrap_or_else(|| document.root())
}

/// An element with attributes or namespaces, where there is one.
pub(crate) fn owner(document: &Document, random: &mut Random) -> NodeId {
    let owns = |id: &NodeId| !document.attribute_nodes(*id).is_empty() || !document.namespace_nodes(*id).is_empty();
    let owners: Vec<NodeId> = document.nodes().filter(owns).collect();
    if owners.is_empty() { element(document, random) } else { random.pick(&owners) }
}

/// An element below `top`, or `top` itself: where moving it would make a cycle.
pub(crate) fn below(document: &Document, random: &mut Random, top: NodeId) -> NodeId {
    let mut elements: Vec<NodeId> = document.descendants_of(top).filter(|id| document.is_element(*id)).collect();
    elements.push(top);
    random.pick(&elements)
}

/// A handle that doesn't resolve: of a freed node, of the node that will come, of a slot not yet made, or made up.
pub(crate) fn stale(document: &Document, random: &mut Random) -> NodeId {
    let slots = u32::try_from(document.nodes.len()).unwrap_or(u32::MAX);
    let index = u32::try_from(random.below(document.nodes.len())).unwrap_or(0);
    let generation = document.generations[index as usize];
    let near = [1, 2, u32::MAX, u32::MAX - 1].map(|step| (index, generation.wrapping_add(step)));
    let far = [(slots, 0), (slots + 1, 0), (u32::MAX, 1), (u32::MAX, 0), (0, 2), (0, u32::MAX)];
    let (index, generation) = if random.chance(700) { random.pick(&near) } else { random.pick(&far) };
    let id = NodeId { index, generation };
    if document.resolve(id).is_none() { id } else { NodeId::UNUSED }
}

/// An index around the ends of a list of this length.
pub(crate) fn index(random: &mut Random, len: usize) -> u64 {
    let len = len as u64;
    let near = [0, 1, 2, len / 2, len.saturating_sub(2), len.saturating_sub(1), len, len + 1];
    let far = [len + 2, 4_294_967_295, 4_294_967_296, 1 << 63, u64::MAX];
    if random.chance(900) { random.pick(&near) } else { random.pick(&far) }
}
