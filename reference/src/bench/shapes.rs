//! Trees of the greatest size, in shapes that are hard on a walk, and damaged memories made of them.

use super::register::{limits, port_of};
use crate::port::Port;
use crate::tree::{Document, NodeId};
use oxml_lent::Record;

/// Nodes beside the Root.
pub(super) const NODES: u32 = 65_535;

/// The root element is node 1; every other is appended under the node of this number.
pub(super) struct Shape {
    pub(super) name: &'static str,
    under: fn(u32) -> u32,
}

pub(super) const FLAT: Shape = Shape { name: "one list", under: |_| 1 };

/// The lists of 256 and the long one share a hint, and each return to the long list looks for its place from the front.
pub(super) const HINTS: Shape = Shape {
    name: "4095 rows, 256 nodes under each of the last 240",
    under: |k| if k <= 4_096 { 1 } else { 3_857 + (k - 4_097) / 256 },
};

pub(super) const SHAPES: [Shape; 5] = [
    FLAT,
    Shape { name: "a chain", under: |k| k - 1 },
    Shape { name: "rows with one node each", under: |k| if k % 2 == 0 { 1 } else { k - 1 } },
    Shape { name: "16 nodes under each", under: |k| (k - 2) / 16 + 1 },
    HINTS,
];

fn id(index: u32) -> NodeId {
    NodeId { index, generation: 0 }
}

impl Shape {
    /// On both sides.
    pub(super) fn built(&self) -> (Document, Port) {
        let mut document = Document::empty();
        for k in 1..=NODES {
            let parent = id(if k == 1 { 0 } else { (self.under)(k) });
            document.append_element(parent, None, "row").expect("an element, or the Root without one");
        }
        let port = port_of(&document, &limits(&document));
        (document, port)
    }
}

// ---- damaged memories, by the words of docs/LAYOUT.md

/// A node's list of children: start and length.
fn list_of(port: &Port, node: usize) -> (usize, usize) {
    let at = record_at(port, node);
    let word = |offset: usize| usize::try_from(port.memory[at + offset]).expect("a word of 32 bits");
    (word(6), word(7))
}

fn set_list(port: &mut Port, node: usize, (start, len): (usize, usize)) {
    let at = record_at(port, node);
    port.memory[at + 6] = start as u64;
    port.memory[at + 7] = len as u64;
}

fn set_parent(port: &mut Port, node: usize, parent: usize) {
    let at = record_at(port, node);
    port.memory[at + 4] = parent as u64 + 1;
}

fn record_at(port: &Port, node: usize) -> usize {
    2 * nodes(port) + 12 * node
}

fn nodes(port: &Port) -> usize {
    let Record([nodes, ..]) = port.record;
    usize::try_from(nodes).expect("a limit")
}

/// Every node has the list of the first.
pub(super) fn laid_over(mut port: Port) -> Port {
    let list = list_of(&port, 1);
    for node in 2..nodes(&port) {
        set_list(&mut port, node, list);
    }
    port
}

/// Nodes 1 and 2 are each the first in the long list of the other, and its parent.
pub(super) fn each_below_the_other(mut port: Port) -> Port {
    let ((start, _), (_, len)) = (list_of(&port, 0), list_of(&port, 1));
    set_list(&mut port, 2, (start, len));
    set_parent(&mut port, 1, 2);
    port
}

/// The last place of the long list holds the node before it: the walk goes back to that node, and through its 256 children, over and over.
pub(super) fn again_behind_itself(mut port: Port) -> Port {
    let (start, len) = list_of(&port, 1);
    let last = 15 * nodes(&port) + start + len - 1;
    port.memory[last] = port.memory[last - 1];
    port
}

/// The parents above node 2 have long lists, none with the node that it is sought for: as many entries for one step as there are slots.
pub(super) fn sought_in_vain(mut port: Port) -> Port {
    let (start, len) = list_of(&port, 1);
    for node in [2, 3] {
        set_parent(&mut port, node, node + 1);
        // From the node two behind on.
        set_list(&mut port, node + 1, (start + node, len / 2));
    }
    port
}
