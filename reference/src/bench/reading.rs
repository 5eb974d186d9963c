//! Times of reading calls.

use super::measure::{Row, least, since};
use super::register::Register;
use crate::calls::Call;
use crate::tree::{Document, NameId, NodeId, NodeKind};
use oxml_lent::{Arena, NodeData};
use std::hint::black_box;
use std::time::Instant;

const CALLS: usize = 20_000;

/// What both sides read of one node; the sum of what was seen, so that nothing is left out.
type Reads<'a> =
    (&'static str, &'a [NodeId], fn(&Document, NodeId) -> u64, fn(&oxml_lent::Document, oxml_lent::NodeId) -> u64);

/// Reading calls, each of many nodes spread over the register. The order is current on both sides.
pub(super) fn reads(register: &Register) -> Result<Vec<Row>, String> {
    let mut document = register.document.clone();
    document.document_order();
    let mut port = register.port.clone();
    port.call(&Call::DocumentOrder);
    let lent = port.document();
    let Register { districts, zones, texts, .. } = register;
    let few: &[NodeId] = &zones[..1];
    let all: [Reads; 12] = [
        ("root", few, |d, _| u64::from(d.root().index), |d, _| d.root().map_or(9, |id| u64::from(id.index))),
        ("parent", texts, rust_parent, port_parent),
        ("children, 1", zones, rust_children, port_children),
        ("children, 50", districts, rust_children, port_children),
        ("attribute_nodes", zones, rust_attributes, port_attributes),
        ("namespace_nodes, none", zones, rust_namespaces, port_namespaces),
        ("kind, an element", zones, rust_kind, port_kind),
        ("kind, a text of 23 bytes", texts, rust_text, port_text),
        ("is_element", zones, |d, id| u64::from(d.is_element(id)), |d, id| d.is_element(id).map_or(9, u64::from)),
        ("name", zones, rust_name, port_name),
        ("order_key", zones, rust_key, port_key),
        ("root_element", few, rust_root_element, port_root_element),
    ];
    let mut rows = Vec::new();
    for (name, nodes, rust, port) in all {
        let ids: Vec<NodeId> = (0..CALLS).map(|k| nodes[k * 7_919 % nodes.len()]).collect();
        let lent_ids: Vec<oxml_lent::NodeId> =
            ids.iter().map(|id| oxml_lent::NodeId { index: id.index, generation: id.generation }).collect();
        let (rust, seen) = timed(|| ids.iter().map(|id| rust(black_box(&document), *id)).sum());
        let (port, shown) = timed(|| lent_ids.iter().map(|id| port(black_box(&lent), *id)).sum());
        if seen != shown {
            return Err(format!("{name}: the Rust shows {seen}, the port {shown}"));
        }
        rows.push(Row { name, rust, port });
    }
    rows.push(every_node(&document, &lent)?);
    Ok(rows)
}

/// `nodes` shows the whole document: nanoseconds a node.
fn every_node(document: &Document, lent: &oxml_lent::Document) -> Result<Row, String> {
    let mut counts = [0, 0];
    let rust = least(5, || {
        let start = Instant::now();
        let all: Vec<NodeId> = black_box(document).nodes().collect();
        counts[0] = all.len();
        since(start) / all.len() as f64
    });
    let port = least(5, || {
        let start = Instant::now();
        let all = black_box(lent).nodes().unwrap_or_default();
        counts[1] = all.len();
        since(start) / all.len() as f64
    });
    if counts[0] == counts[1] {
        Ok(Row { name: "nodes, for each node", rust, port })
    } else {
        Err(format!("nodes: the Rust shows {}, the port {}", counts[0], counts[1]))
    }
}

fn timed(mut round: impl FnMut() -> u64) -> (f64, u64) {
    let mut seen = 0;
    let time = least(5, || {
        let start = Instant::now();
        seen = black_box(round());
        since(start) / CALLS as f64
    });
    (time, seen)
}

fn index(id: Option<u32>) -> u64 {
    id.map_or(0, u64::from)
}

fn rust_parent(d: &Document, id: NodeId) -> u64 {
    index(d.parent(id).map(|id| id.index))
}

fn port_parent(d: &oxml_lent::Document, id: oxml_lent::NodeId) -> u64 {
    index(d.parent(id).ok().flatten().map(|id| id.index))
}

fn rust_children(d: &Document, id: NodeId) -> u64 {
    d.children(id).iter().map(|id| u64::from(id.index)).sum()
}

fn port_children(d: &oxml_lent::Document, id: oxml_lent::NodeId) -> u64 {
    port_list(d, Arena::Children, id)
}

fn rust_attributes(d: &Document, id: NodeId) -> u64 {
    d.attribute_nodes(id).iter().map(|id| u64::from(id.index)).sum()
}

fn port_attributes(d: &oxml_lent::Document, id: oxml_lent::NodeId) -> u64 {
    port_list(d, Arena::Attributes, id)
}

fn rust_namespaces(d: &Document, id: NodeId) -> u64 {
    d.namespace_nodes(id).iter().map(|id| u64::from(id.index)).sum()
}

fn port_namespaces(d: &oxml_lent::Document, id: oxml_lent::NodeId) -> u64 {
    port_list(d, Arena::Namespaces, id)
}

fn port_list(d: &oxml_lent::Document, arena: Arena, id: oxml_lent::NodeId) -> u64 {
    let mut out = [0; 64];
    let Ok(range) = d.range(arena, id) else { return 9 };
    let count = d.entries(arena, range, &mut out);
    out[..count].iter().map(|word| word & 0xffff_ffff).sum()
}

fn rust_kind(d: &Document, id: NodeId) -> u64 {
    match d.kind(id) {
        Some(NodeKind::Element { name, attributes, .. }) => u64::from(name.0) + u64::from(attributes.0),
        _ => 9,
    }
}

fn port_kind(d: &oxml_lent::Document, id: oxml_lent::NodeId) -> u64 {
    match d.data(id) {
        Ok(Some(NodeData::Element { name, attributes, .. })) => name + attributes.start,
        _ => 9,
    }
}

fn rust_text(d: &Document, id: NodeId) -> u64 {
    match d.kind(id) {
        Some(NodeKind::Text(text)) => text.bytes().map(u64::from).sum(),
        _ => 9,
    }
}

fn port_text(d: &oxml_lent::Document, id: oxml_lent::NodeId) -> u64 {
    let mut out = [0; 64];
    match d.data(id) {
        Ok(Some(NodeData::Text(text))) => {
            let count = d.text_words(text, &mut out);
            out[..count].iter().sum()
        }
        _ => 9,
    }
}

fn rust_name(d: &Document, id: NodeId) -> u64 {
    d.name(NameId(id.index % 4)).map_or(9, |name| name.local.bytes().map(u64::from).sum())
}

fn port_name(d: &oxml_lent::Document, id: oxml_lent::NodeId) -> u64 {
    let mut out = [0; 64];
    let count = d.local_words(u64::from(id.index % 4), &mut out);
    out[..count].iter().sum()
}

fn rust_key(d: &Document, id: NodeId) -> u64 {
    index(d.order_key(id))
}

fn port_key(d: &oxml_lent::Document, id: oxml_lent::NodeId) -> u64 {
    d.order_key(id).ok().flatten().unwrap_or(0)
}

fn rust_root_element(d: &Document, _: NodeId) -> u64 {
    index(d.root_element().map(|id| id.index))
}

fn port_root_element(d: &oxml_lent::Document, _: oxml_lent::NodeId) -> u64 {
    index(d.root_element().ok().flatten().map(|id| id.index))
}
