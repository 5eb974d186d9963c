//! The structure rules 1 to 8 of document 01, over a state as a dump shows it. Each rule stands alone and ends on every state, damaged ones too.

use crate::limits::Limits;
use crate::state::{Arena, Block, Data, Node, State};
use crate::tree::NodeId;

type Rule = fn(&State, &Limits) -> bool;

const RULES: [Rule; 8] =
    [counts_and_root, free_list, parents, entries, blocks, parents_end, one_root_element, texts_and_names];

/// The numbers of the rules that a state breaks.
pub(crate) fn broken(state: &State, limits: &Limits) -> Vec<usize> {
    (1..=8).filter(|number| !RULES[number - 1](state, limits)).collect()
}

/// The live nodes with their handles.
pub(crate) fn live(state: &State) -> impl Iterator<Item = (NodeId, &Node)> {
    state.slots.iter().enumerate().filter_map(|(index, slot)| {
        let id = NodeId { index: u32::try_from(index).ok()?, generation: u32::try_from(slot.generation).ok()? };
        Some((id, resolve(state, id)?))
    })
}

fn resolve(state: &State, id: NodeId) -> Option<&Node> {
    let slot = state.slots.get(id.index())?;
    let same = slot.generation == u64::from(id.generation) && slot.generation.is_multiple_of(2);
    if same { slot.node.as_ref() } else { None }
}

/// 1. Counts are within limits, words within their fields. Slot 0 is the only live Root: generation 0, no parent.
fn counts_and_root(state: &State, limits: &Limits) -> bool {
    let counts = Limits {
        nodes: state.slots.len() as u64,
        entries: state.arenas.each_ref().map(|arena| arena.length),
        texts: state.texts.len() as u64,
        text_bytes: state.text_bytes,
        names: state.names.len() as u64,
        name_bytes: state.name_bytes,
    };
    let roots: Vec<(NodeId, &Node)> = live(state).filter(|(_, node)| node.data == Data::Root).collect();
    let root = NodeId { index: 0, generation: 0 };
    counts.within(limits)
        && words(state).into_iter().all(|word| word <= u64::from(u32::MAX))
        && state.slots.iter().all(|slot| !slot.generation.is_multiple_of(2) || slot.node.is_some())
        && live(state).all(|(_, node)| has_the_blocks_of_its_kind(node))
        && matches!(roots.as_slice(), [(id, node)] if *id == root && node.parent.is_none())
}

/// Every word that has a field of 32 bits.
fn words(state: &State) -> Vec<u64> {
    let ranges = live(state).flat_map(|(_, node)| node.blocks.iter().flatten());
    let mut words: Vec<u64> = state.slots.iter().map(|slot| slot.generation).collect();
    words.extend(ranges.flat_map(|block| [block.start, block.len]));
    words.extend(state.arenas.iter().flat_map(|arena| arena.records.values()));
    words.extend(state.order.iter().flatten());
    words
}

/// Only elements have an attribute and a namespace block; attributes and namespaces have no block at all.
fn has_the_blocks_of_its_kind(node: &Node) -> bool {
    let [children, attributes, namespaces] = &node.blocks;
    let Some(children) = children else {
        return false;
    };
    let is_element = matches!(node.data, Data::Element { .. });
    let is_childless = matches!(node.data, Data::Attr { .. } | Data::Namespace { .. });
    attributes.is_some() == is_element
        && namespaces.is_some() == is_element
        && (!is_childless || (children.start, children.len) == (0, 0))
}

/// 2. The free list holds every odd-generation slot once and no other.
fn free_list(state: &State, _: &Limits) -> bool {
    let odd = |slot: usize| !state.slots[slot].generation.is_multiple_of(2);
    let mut due: Vec<u64> = (0..state.slots.len()).filter(|i| odd(*i)).map(|i| i as u64).collect();
    let mut free = state.free.clone();
    due.sort_unstable();
    free.sort_unstable();
    due == free
}

/// 3. Attributes and namespaces have a live element as parent. Others have a live Root or element, or none (detached).
fn parents(state: &State, _: &Limits) -> bool {
    live(state).all(|(_, node)| {
        let owned = node.data.listed_in() != Arena::Children;
        let Some(parent) = node.parent else {
            return !owned;
        };
        match resolve(state, parent).map(|parent| &parent.data) {
            Some(Data::Element { .. }) => true,
            Some(Data::Root) => !owned,
            _ => false,
        }
    })
}

/// 4. A live node with a parent is in just one entry of that parent's block of its kind; no live node's block has another entry.
fn entries(state: &State, _: &Limits) -> bool {
    let mut seen = vec![0_usize; state.slots.len()];
    for (id, node) in live(state) {
        for arena in Arena::ALL {
            let Some(block) = &node.blocks[arena as usize] else {
                continue;
            };
            if block.ids.len() as u64 != block.len {
                return false;
            }
            for entry in &block.ids {
                let listed = resolve(state, *entry)
                    .is_some_and(|child| child.parent == Some(id) && child.data.listed_in() == arena);
                if !listed {
                    return false;
                }
                seen[entry.index()] += 1;
            }
        }
    }
    live(state).all(|(id, node)| seen[id.index()] == usize::from(node.parent.is_some()))
}

/// 5. Non-empty blocks with their capacities lie inside the arena and don't overlap. An empty block's start is at most the arena's length.
fn blocks(state: &State, _: &Limits) -> bool {
    Arena::ALL.into_iter().all(|arena| {
        let all: Vec<&Block> = live(state).filter_map(|(_, node)| node.blocks[arena as usize].as_ref()).collect();
        let length = state.arenas[arena as usize].length;
        let records = &state.arenas[arena as usize].records;
        let capacity = |block: &Block| records.get(&block.start).copied().unwrap_or(0).max(block.len);
        let mut taken: Vec<(u64, u64)> = all
            .iter()
            .filter(|block| block.len > 0)
            .map(|block| (block.start, block.start.saturating_add(capacity(block))))
            .collect();
        taken.sort_unstable();
        taken.iter().all(|(_, end)| *end <= length)
            && taken.windows(2).all(|two| two[0].1 <= two[1].0)
            && all.iter().all(|block| block.len > 0 || block.start <= length)
    })
}

/// 6. Following parents always ends.
fn parents_end(state: &State, _: &Limits) -> bool {
    let up = |id: &NodeId| resolve(state, *id).and_then(|node| node.parent);
    let mut ends = vec![false; state.slots.len()];
    live(state).all(|(id, _)| {
        // The way up to a node that is known to end, cut off where it is longer than there are slots.
        let way: Vec<NodeId> = std::iter::successors(Some(id), up)
            .take_while(|id| ends.get(id.index()) == Some(&false))
            .take(state.slots.len() + 1)
            .collect();
        for id in &way {
            ends[id.index()] = true;
        }
        way.len() <= state.slots.len()
    })
}

/// 7. The Root has at most one element child.
fn one_root_element(state: &State, _: &Limits) -> bool {
    live(state).filter(|(_, node)| node.data == Data::Root).all(|(_, root)| {
        let children = root.blocks[Arena::Children as usize].iter().flat_map(|block| &block.ids);
        let is_element =
            |id: &&NodeId| matches!(resolve(state, **id).map(|node| &node.data), Some(Data::Element { .. }));
        children.filter(is_element).count() <= 1
    })
}

/// 8. Every pool text slot belongs to one field of one live node, or is in the free text list once with length 0; text and name lengths add to the bytes
/// used; name numbers are below the name count.
fn texts_and_names(state: &State, _: &Limits) -> bool {
    let mut uses = vec![0_usize; state.texts.len()];
    let held = live(state).flat_map(|(_, node)| node.data.texts()).filter_map(|text| text.slot);
    for slot in held.chain(state.free_texts.iter().copied()) {
        match usize::try_from(slot).ok().and_then(|slot| uses.get_mut(slot)) {
            Some(uses) => *uses += 1,
            None => return false,
        }
    }
    let free_are_empty = state.free_texts.iter().all(|slot| state.texts[*slot as usize].is_empty());
    let text_bytes: u64 = state.texts.iter().map(|text| text.len() as u64).sum();
    let name_bytes: u64 = state.names.iter().map(|(namespace, local)| (namespace.len() + local.len()) as u64).sum();
    uses.iter().all(|uses| *uses == 1)
        && free_are_empty
        && text_bytes == state.text_bytes
        && name_bytes == state.name_bytes
        && live(state).all(|(_, node)| match node.data {
            Data::Element { name } | Data::Attr { name, .. } => name < state.names.len() as u64,
            _ => true,
        })
}
