//! How many entries of lists a walk reads, counted along its definition (crates/descendants/specs/Walking.antt).

use crate::tree::{Document, NodeId};

/// A walk under a node, with a hint for the lists of each of four sizes.
struct Walk<'d> {
    document: &'d Document,
    zone: NodeId,
    hints: [usize; 4],
    read: usize,
}

fn size(list: &[NodeId]) -> usize {
    [16, 256, 4096].iter().position(|&longer| list.len() < longer).unwrap_or(3)
}

impl Walk<'_> {
    fn visit(&mut self, list: &[NodeId], at: usize) -> NodeId {
        self.read += 1;
        self.hints[size(list)] = at;
        list[at]
    }

    /// The hint, where the node is there, or else found from the front.
    fn index(&mut self, list: &[NodeId], node: NodeId) -> Option<usize> {
        let hint = self.hints[size(list)];
        if let Some(&there) = list.get(hint) {
            self.read += 1;
            if there == node {
                return Some(hint);
            }
        }
        let found = list.iter().position(|&other| other == node)?;
        self.read += found + 1;
        Some(found)
    }

    fn next(&mut self, from: NodeId) -> Option<NodeId> {
        let document = self.document;
        if let list @ [_, ..] = document.children(from) {
            return Some(self.visit(list, 0));
        }
        let mut node = from;
        while node != self.zone {
            let parent = document.parent(node)?;
            let list = document.children(parent);
            let at = self.index(list, node)? + 1;
            if at < list.len() {
                return Some(self.visit(list, at));
            }
            node = parent;
        }
        None
    }
}

/// For each node that a walk under one lists; none where it does not list what the Rust lists.
pub(super) fn entries_read(document: &Document, zone: NodeId) -> Option<f64> {
    let mut walk = Walk { document, zone, hints: [0; 4], read: 0 };
    let mut at = zone;
    let mut nodes = 0;
    for listed in document.descendants_of(zone) {
        at = walk.next(at).filter(|&next| next == listed)?;
        nodes += 1;
    }
    walk.next(at).is_none().then(|| walk.read as f64 / f64::from(nodes))
}
