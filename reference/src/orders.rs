//! Two moves in either order (document 02, n): on documents that generated lists leave, two moves of different nodes, the parents that one leaves and enters being none of the
//! other's, must end alike where both are accepted in each order, by the port and by the Rust.

use crate::answers::Answer;
use crate::calls::Call;
use crate::choose;
use crate::driver::Reference;
use crate::generate;
use crate::limits::Limits;
use crate::port::Port;
use crate::random::Random;
use crate::state::{ArenaState, State};
use crate::tree::{Document, NodeId};

/// Small, so that moves are Full now and then.
const LIMITS: Limits =
    Limits { nodes: 40, entries: [160, 40, 40], texts: 40, text_bytes: 300, names: 20, name_bytes: 120 };

/// Profiles whose lists leave trees of many shapes, detached ones among them.
const PROFILES: [&str; 5] = ["mixed", "growth", "moves", "reuse", "order"];

/// Pairs tried on each document.
const TRIES: usize = 200;

/// Pairs of moves that were accepted in each order.
#[derive(Clone, Copy, Debug, Default)]
pub struct Pairs {
    /// Without a node or a parent in common: all ended alike.
    pub apart: u64,
    /// Those among them whose block ranges differ between the orders.
    pub ranges_differ: u64,
    /// With a node or a parent in common.
    pub others: u64,
    /// Those among them that ended differently: without document 02's condition the claim is false.
    pub others_differ: u64,
}

/// Tries pairs of moves until so many were apart and accepted in each order.
///
/// # Errors
///
/// The first such pair that ends differently, or the first answer of the port that is not the Rust's.
pub fn orders(seed: u64, pairs: u64) -> Result<Pairs, String> {
    let mut random = Random::new(seed);
    let mut tally = Pairs::default();
    let mut number = seed;
    while tally.apart < pairs {
        for profile in PROFILES {
            let sides = Sides::after(number, profile, &mut random)?;
            for _ in 0..TRIES {
                let moves = [a_move(&sides.rust.document, &mut random), a_move(&sides.rust.document, &mut random)];
                try_pair(&sides, moves, &mut random, &mut tally).map_err(|why| format!("{profile} {number}: {why}"))?;
            }
        }
        number += 1;
    }
    Ok(tally)
}

/// A move, and the node and the new parent of its call.
#[derive(Clone)]
struct Move {
    call: Call,
    node: NodeId,
    under: NodeId,
}

fn a_move(document: &Document, random: &mut Random) -> Move {
    let node = match random.below(4) {
        0 => choose::only_child(document, random),
        1 => choose::detached(document, random),
        _ => choose::child(document, random),
    };
    let under = choose::container(document, random);
    let index = choose::index(random, document.children(under).len());
    let call = if random.chance(400) {
        Call::Reparent { node, parent: under }
    } else {
        Call::InsertAt { parent: under, index, child: node }
    };
    Move { call, node, under }
}

impl Move {
    /// The parents that it leaves and enters.
    fn parents(&self, document: &Document) -> Vec<NodeId> {
        document.parent(self.node).into_iter().chain([self.under]).collect()
    }

    fn is_apart(&self, other: &Move, document: &Document) -> bool {
        let theirs = other.parents(document);
        self.node != other.node && self.parents(document).iter().all(|parent| !theirs.contains(parent))
    }
}

/// The Rust and the port after the same calls.
#[derive(Clone)]
struct Sides {
    rust: Reference,
    port: Port,
}

impl Sides {
    fn after(seed: u64, profile: &str, random: &mut Random) -> Result<Sides, String> {
        let calls = generate::calls(seed, 20 + random.below(200), profile).ok_or("no such profile")?;
        let port = Port::fresh(&LIMITS).map_err(|why| why.to_string())?;
        let mut sides = Sides { rust: Reference::fresh(LIMITS), port };
        for call in &calls {
            sides.call(call)?;
        }
        Ok(sides)
    }

    /// The answer of both.
    fn call(&mut self, call: &Call) -> Result<Answer, String> {
        let (rust, port) = (self.rust.call(call), self.port.call(call));
        if rust.to_string() == port.to_string() {
            Ok(rust)
        } else {
            Err(format!("{call:?}: {port}, and the Rust {rust}"))
        }
    }

    /// Both moves and a renewal of the order; none where a move is refused.
    fn in_order(&self, moves: [&Move; 2], renewal: &Call) -> Result<Option<Sides>, String> {
        let mut sides = self.clone();
        for one in moves {
            if let Answer::Refused(_) = sides.call(&one.call)? {
                return Ok(None);
            }
        }
        sides.call(renewal)?;
        Ok(Some(sides))
    }

    fn states(&self) -> [State; 2] {
        let port = self.port.laid_out().state().expect("the limits of a document that was started");
        [State::of(&self.rust.document), port]
    }
}

/// All but where blocks lie: generations, kinds, parents, lists, texts, names and order words.
fn without_places(mut state: State) -> State {
    state.arenas = [(); 3].map(|()| ArenaState::default());
    let nodes = state.slots.iter_mut().filter_map(|slot| slot.node.as_mut());
    for block in nodes.flat_map(|node| node.blocks.iter_mut().flatten()) {
        block.start = 0;
    }
    state
}

fn try_pair(sides: &Sides, [m, n]: [Move; 2], random: &mut Random, tally: &mut Pairs) -> Result<(), String> {
    let renewals = [0, 1].map(|_| if random.chance(500) { Call::DocumentOrder } else { Call::Compact });
    let one = sides.in_order([&m, &n], &renewals[0])?;
    let other = sides.in_order([&n, &m], &renewals[1])?;
    let (Some(one), Some(other)) = (one, other) else {
        return Ok(());
    };
    let (one, other) = (one.states(), other.states());
    let alike = one.clone().map(without_places) == other.clone().map(without_places);
    if !m.is_apart(&n, &sides.rust.document) {
        tally.others += 1;
        tally.others_differ += u64::from(!alike);
        return Ok(());
    }
    tally.apart += 1;
    // `compact` lays blocks in slot order, whatever was before.
    tally.ranges_differ += u64::from(renewals == [Call::DocumentOrder, Call::DocumentOrder] && one != other);
    if alike { Ok(()) } else { Err(format!("{:?} and {:?} end differently in the two orders", m.call, n.call)) }
}
