//! Times of walks under the Root.

use super::entries::entries_read;
use super::measure::{least, since};
use super::shapes::{FLAT, HINTS, SHAPES, Shape, again_behind_itself, each_below_the_other, laid_over, sought_in_vain};
use crate::port::{Port, lent};
use crate::tree::{Document, NodeId};
use oxml_lent::Position;
use std::hint::black_box;
use std::time::Instant;

const ROUNDS: usize = 9;

/// Entries of lists that the port's walk reads for each node, and nanoseconds a node: the Rust's iterator, the port's, and the port's list.
pub(super) struct Walk {
    pub(super) name: &'static str,
    pub(super) entries: f64,
    pub(super) rust: f64,
    pub(super) steps: f64,
    pub(super) list: f64,
}

/// Nanoseconds for what is listed in a memory that may be damaged.
pub(super) struct Listing {
    pub(super) name: &'static str,
    pub(super) nodes: usize,
    pub(super) time: f64,
}

pub(super) struct Walks {
    pub(super) sound: Vec<Walk>,
    pub(super) damaged: Vec<Listing>,
}

pub(super) fn walks() -> Result<Walks, String> {
    let sound: Result<_, String> = SHAPES.iter().map(walk).collect();
    Ok(Walks { sound: sound?, damaged: listings()? })
}

fn id(index: u32) -> NodeId {
    NodeId { index, generation: 0 }
}

fn walk(shape: &Shape) -> Result<Walk, String> {
    let (document, mut port) = shape.built();
    let port = port.document();
    let differ = || format!("{}: the walks differ", shape.name);
    let nodes = same_nodes(&document, &port).ok_or_else(differ)? as f64;
    let entries = entries_read(&document, id(0)).ok_or_else(differ)?;
    let rust = least(ROUNDS, || {
        let start = Instant::now();
        black_box(black_box(&document).descendants_of(id(0)).map(|id| u64::from(id.index)).sum::<u64>());
        since(start) / nodes
    });
    let steps = least(ROUNDS, || {
        let start = Instant::now();
        let walk = black_box(&port).descendants_of(lent(id(0)));
        black_box(walk.into_iter().flatten().map(|id| u64::from(id.index)).sum::<u64>());
        since(start) / nodes
    });
    let list = least(ROUNDS, || {
        let start = Instant::now();
        let list = black_box(&port).list_below(lent(id(0)));
        black_box(list.into_iter().flatten().map(|id| u64::from(id.index)).sum::<u64>());
        since(start) / nodes
    });
    Ok(Walk { name: shape.name, entries, rust, steps, list })
}

/// How many nodes each of the three lists, which must be the same.
fn same_nodes(document: &Document, port: &oxml_lent::Document) -> Option<usize> {
    let rust: Vec<oxml_lent::NodeId> = document.descendants_of(id(0)).map(lent).collect();
    let steps: Vec<oxml_lent::NodeId> = port.descendants_of(lent(id(0))).ok()?.collect();
    (steps == rust && port.list_below(lent(id(0))).ok()? == rust).then_some(rust.len())
}

/// `list_below` in damaged memories, beside sound ones, and one step from a made-up position.
fn listings() -> Result<Vec<Listing>, String> {
    let ((_, flat), (_, hints)) = (FLAT.built(), HINTS.built());
    let memories = [
        (FLAT.name, flat.clone()),
        (HINTS.name, hints.clone()),
        ("every list laid over one long list", laid_over(flat.clone())),
        ("two nodes, each below the other", each_below_the_other(flat.clone())),
        ("a node of the 4095 again behind itself", again_behind_itself(hints)),
    ];
    let mut rows = Vec::new();
    for (name, port) in memories {
        rows.push(listing(name, port)?);
    }
    rows.push(one_step(sought_in_vain(flat))?);
    Ok(rows)
}

fn listing(name: &'static str, mut port: Port) -> Result<Listing, String> {
    let document = port.document();
    let mut nodes = 0;
    let time = least(ROUNDS, || {
        let start = Instant::now();
        let list = black_box(&document).list_below(lent(id(1)));
        nodes = black_box(list).map_or(usize::MAX, |list| list.len());
        since(start)
    });
    if nodes == usize::MAX { Err(format!("{name}: refused")) } else { Ok(Listing { name, nodes, time }) }
}

fn one_step(mut port: Port) -> Result<Listing, String> {
    let document = port.document();
    let at = Position([0, 2, 0, 0, 0, 0, u64::MAX]);
    let mut listed = None;
    let time = least(ROUNDS, || {
        let start = Instant::now();
        listed = black_box(&document).walk_next(black_box(at)).ok();
        since(start)
    });
    match listed {
        Some(next) => Ok(Listing { name: "one step that looks through all slots", nodes: next.iter().count(), time }),
        None => Err("a step is refused".to_string()),
    }
}
