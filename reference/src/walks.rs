//! Walks that no list has: from made-up positions, in damaged memory, and with edits between their steps. Each must end, list only nodes that resolve in the
//! memory that its step finds, and no more of them than the node limit.

use crate::answers::Answer;
use crate::calls::Call;
use crate::generate;
use crate::limits::Limits;
use crate::port::{Port, handle, lent};
use crate::random::Random;
use crate::tree::NodeId;
use oxml_lent::{Document, Position, Record, Refusal};

/// Few nodes, so that walks whose nodes are put in front of them again come to the limit.
const LIMITS: Limits =
    Limits { nodes: 24, entries: [160, 40, 40], texts: 24, text_bytes: 200, names: 12, name_bytes: 80 };

/// Profiles whose lists move and free much.
const PROFILES: [&str; 5] = ["mixed", "growth", "moves", "reuse", "order"];

/// What was walked.
#[derive(Clone, Copy, Debug, Default)]
pub struct Walks {
    pub walks: u64,
    /// Those that listed as many nodes as the limit allows.
    pub longest: u64,
    /// Nodes listed.
    pub nodes: u64,
    /// Accepted edits between the first step of a walk and its last.
    pub edits: u64,
}

impl Walks {
    /// What one walk listed.
    fn count(&mut self, nodes: u64, limit: u64) {
        self.nodes += nodes;
        self.longest += u64::from(nodes == limit);
    }

    pub(crate) fn add(&mut self, other: &Walks) {
        self.walks += other.walks;
        self.longest += other.longest;
        self.nodes += other.nodes;
    }
}

// ---- in any memory

/// Walks from a node and from made-up positions.
pub(crate) fn in_any_memory(port: &mut Port, from: NodeId, positions: &[Position]) -> Result<Walks, String> {
    let mut tally = Walks { walks: 1 + positions.len() as u64, ..Walks::default() };
    let memory = port.laid_out();
    let Some(live) = memory.live_nodes() else {
        return are_refused(&port.document(), from, positions).map(|()| tally);
    };
    let document = port.document();
    let start = document.walk_from(lent(from)).map_err(|why| why.to_string())?;
    let listed = listed_from(&document, start, &live)?;
    if document.list_below(lent(from)).as_ref() != Ok(&listed) {
        return Err(format!("step by step {listed:?} is below {from:?}, and not by list_below"));
    }
    tally.count(listed.len() as u64, memory.limits[0]);
    for at in positions {
        tally.count(listed_from(&document, *at, &live)?.len() as u64, memory.limits[0]);
    }
    let same = port.laid_out() == memory;
    if same { Ok(tally) } else { Err("a walk changed the document".to_string()) }
}

fn are_refused(document: &Document, from: NodeId, positions: &[Position]) -> Result<(), String> {
    let due = Some(Refusal::BadBuffers);
    let refused = document.walk_from(lent(from)).err() == due
        && document.list_below(lent(from)).err() == due
        && positions.iter().all(|at| document.walk_next(*at).err() == due);
    if refused { Ok(()) } else { Err("a walk is not refused".to_string()) }
}

/// The nodes from a position to the end.
fn listed_from(document: &Document, from: Position, live: &[NodeId]) -> Result<Vec<oxml_lent::NodeId>, String> {
    let Record([most, ..]) = document.record();
    let (mut at, mut listed) = (from, Vec::new());
    while let Some((id, next)) = document.walk_next(at).map_err(|why| why.to_string())? {
        listed.push(id);
        if !live.contains(&handle(id)) || listed.len() as u64 > most {
            return Err(format!("{listed:?} from {from:?}, where {live:?} resolve"));
        }
        at = next;
    }
    Ok(listed)
}

// ---- made-up positions

/// Words from anywhere, or a walk's with one or two of them changed; some with no end of nodes left.
pub(crate) fn made_up(random: &mut Random, port: &mut Port) -> Position {
    let Position(mut words) = some_words(random, port);
    if random.chance(300) {
        words[6] = u64::MAX;
    }
    Position(words)
}

fn some_words(random: &mut Random, port: &mut Port) -> Position {
    if random.chance(500) {
        return Position([(); 7].map(|()| any_word(random, port)));
    }
    let index = if random.chance(500) { 0 } else { a_slot(random, port) as u32 };
    let from = oxml_lent::NodeId { index, generation: 0 };
    let steps = random.below(12);
    let Position(mut words) = some_steps(&port.document(), from, steps).unwrap_or(Position([0; 7]));
    for _ in 0..1 + random.below(2) {
        let at = random.below(7);
        let near = [words[at].wrapping_add(1), words[at].wrapping_sub(1), words[at] ^ (1 << 32)];
        words[at] = if random.chance(400) { random.pick(&near) } else { any_word(random, port) };
    }
    Position(words)
}

/// Where a walk stands after so many steps, or at its end.
fn some_steps(document: &Document, from: oxml_lent::NodeId, steps: usize) -> Option<Position> {
    let mut at = document.walk_from(from).ok()?;
    for _ in 0..steps {
        match document.walk_next(at) {
            Ok(Some((_, next))) => at = next,
            _ => break,
        }
    }
    Some(at)
}

/// A slot that was made, or the next.
fn a_slot(random: &mut Random, port: &Port) -> usize {
    let Record(words) = port.record;
    let made = usize::try_from(words[8]).unwrap_or(usize::MAX);
    random.below(made.min(23) + 1)
}

/// Mostly a slot's handle or a small number.
fn any_word(random: &mut Random, port: &Port) -> u64 {
    let slot = a_slot(random, port);
    match random.below(8) {
        0..4 => slot as u64 | port.memory[slot] << 32,
        4 | 5 => slot as u64,
        6 => random.pick(&[u64::MAX, 1 << 32, u64::from(u32::MAX)]),
        _ => random.next(),
    }
}

// ---- with edits between the steps

/// Walks over the edits of generated lists until there were so many.
///
/// # Errors
///
/// The first walk that lists a node that does not resolve, or more nodes than the limit.
pub fn walks(seed: u64, walks: u64) -> Result<Walks, String> {
    let mut trial = Trial { random: Random::new(seed), tally: Walks::default() };
    let mut number = seed;
    while trial.tally.walks < walks {
        for profile in PROFILES {
            trial.over_a_list(number, profile).map_err(|why| format!("{profile} {number}: {why}"))?;
        }
        number += 1;
    }
    Ok(trial.tally)
}

struct Trial {
    random: Random,
    tally: Walks,
}

/// A walk that is kept over edits.
struct Walk {
    at: Position,
    listed: Vec<NodeId>,
    edits: u64,
}

impl Trial {
    /// The first calls of a list, then the others with none to three steps before each; a walk that ends is followed by another.
    fn over_a_list(&mut self, seed: u64, profile: &str) -> Result<(), String> {
        let calls = generate::calls(seed, 60 + self.random.below(200), profile).ok_or("no such profile")?;
        let (first, others) = calls.split_at(calls.len().min(40));
        let mut port = Port::fresh(&LIMITS).map_err(|why| why.to_string())?;
        for call in first {
            port.call(call);
        }
        let mut walk = self.begin(&mut port)?;
        for call in others {
            for _ in 0..self.random.below(4) {
                walk = self.step(&mut port, walk)?;
            }
            let call = self.edit(&mut port, &walk).unwrap_or_else(|| call.clone());
            let answer = port.call(&call);
            walk.edits += u64::from(call.is_edit() && !matches!(answer, Answer::Refused(_)));
        }
        Ok(())
    }

    fn begin(&mut self, port: &mut Port) -> Result<Walk, String> {
        let live = port.laid_out().live_nodes().ok_or("the document is refused")?;
        let from = if self.random.chance(800) { live[0] } else { self.random.pick(&live) };
        let at = port.document().walk_from(lent(from)).map_err(|why| why.to_string())?;
        Ok(Walk { at, listed: Vec::new(), edits: 0 })
    }

    fn step(&mut self, port: &mut Port, mut walk: Walk) -> Result<Walk, String> {
        let next = port.document().walk_next(walk.at).map_err(|why| why.to_string())?;
        let Some((id, at)) = next else {
            self.tally.walks += 1;
            self.tally.edits += walk.edits;
            self.tally.count(walk.listed.len() as u64, LIMITS.nodes);
            return self.begin(port);
        };
        walk.at = at;
        walk.listed.push(handle(id));
        let live = port.laid_out().live_nodes().unwrap_or_default();
        if live.contains(&handle(id)) && walk.listed.len() as u64 <= LIMITS.nodes {
            Ok(walk)
        } else {
            Err(format!("a walk lists {:?}, and {live:?} resolve", walk.listed))
        }
    }

    /// Mostly a move of a node that was listed to where the walk meets it again: under the one listed last, or behind it.
    fn edit(&mut self, port: &mut Port, walk: &Walk) -> Option<Call> {
        let [before @ .., last] = walk.listed.as_slice() else { return None };
        if before.is_empty() || self.random.chance(300) {
            return None;
        }
        let node = self.random.pick(before);
        let above = port.document().parent(lent(*last)).ok().flatten().map_or(*last, handle);
        Some(Call::Reparent { node, parent: if self.random.chance(500) { *last } else { above } })
    }
}
