//! Damaged memory: words of valid documents are changed, at random and each in turn, and records are forged. Every call of the port must end with an answer,
//! an editing call must answer Damaged exactly where the independent check finds a broken rule, and a refused call must leave every word.

use crate::answers::Answer;
use crate::calls::Call;
use crate::driver::BAD_BUFFERS;
use crate::generate;
use crate::limits::Limits;
use crate::port::Port;
use crate::random::Random;
use crate::tree::NodeId;
use crate::walks::{self, Walks};
use oxml_lent::Record;

const DAMAGED: u8 = 5;

/// Small, so that every word can be changed in turn.
const LIMITS: Limits =
    Limits { nodes: 24, entries: [64, 32, 32], texts: 24, text_bytes: 120, names: 10, name_bytes: 60 };

/// Profiles whose lists leave documents of many kinds.
const PROFILES: [&str; 6] = ["mixed", "growth", "moves", "reuse", "order", "attributes"];

/// What was tried, and what was met.
#[derive(Clone, Copy, Debug, Default)]
pub struct Tally {
    /// Memories and records that differ from a valid document's.
    pub states: u64,
    /// Those that break a rule, those that keep them all, and those whose limits or lengths are refused.
    pub broken: u64,
    pub sound: u64,
    pub refused: u64,
    pub calls: u64,
    /// From nodes and from made-up positions.
    pub walks: Walks,
}

/// Tries damaged states until there were so many.
///
/// # Errors
///
/// The first state and call whose answer is not the one that is due.
pub fn damage(seed: u64, states: u64) -> Result<Tally, String> {
    let mut trial = Trial { random: Random::new(seed), tally: Tally::default() };
    let mut number = seed;
    while trial.tally.states < states {
        for profile in PROFILES {
            let valid = valid_document(number, profile, &mut trial.random)?;
            trial.every_word(&valid)?;
            trial.several_words(&valid)?;
            trial.repeated_entries(&valid)?;
            trial.forged_records(&valid)?;
        }
        number += 1;
    }
    Ok(trial.tally)
}

/// A document after the calls of a generated list, of which some are refused as Full.
fn valid_document(seed: u64, profile: &str, random: &mut Random) -> Result<Port, String> {
    let calls = generate::calls(seed, 20 + random.below(80), profile).ok_or("no such profile")?;
    let mut port = Port::fresh(&LIMITS).map_err(|why| why.to_string())?;
    for call in &calls {
        port.call(call);
    }
    match port.laid_out().broken_rules() {
        Some(broken) if broken.is_empty() => Ok(port),
        broken => Err(format!("{profile} {seed} leaves a document that breaks {broken:?}")),
    }
}

/// What every editing call is to answer in a state, and whether a reading call, which is lent no scratch, is refused.
#[derive(Clone, Copy, PartialEq, Eq)]
enum Due {
    BadBuffers { reading: bool },
    Damaged,
    AnyOther,
}

impl Due {
    fn of(port: &Port) -> Due {
        let memory = port.laid_out();
        match memory.broken_rules() {
            None => Due::BadBuffers { reading: true },
            Some(_) if memory.scratch_words() > port.scratch.len() => Due::BadBuffers { reading: false },
            Some(broken) if broken.is_empty() => Due::AnyOther,
            Some(_) => Due::Damaged,
        }
    }

    fn is(self, answer: &Answer) -> bool {
        match answer {
            Answer::Refused(BAD_BUFFERS) => matches!(self, Due::BadBuffers { .. }),
            Answer::Refused(DAMAGED) => self == Due::Damaged,
            _ => self == Due::AnyOther,
        }
    }
}

struct Trial {
    random: Random,
    tally: Tally,
}

impl Trial {
    fn every_word(&mut self, valid: &Port) -> Result<(), String> {
        for at in 0..valid.memory.len() {
            for value in self.other_values(valid.memory[at], &valid.memory) {
                let mut port = valid.clone();
                port.memory[at] = value;
                self.state(port, valid)?;
            }
        }
        Ok(())
    }

    /// Two to four words at once, near each other or far apart.
    fn several_words(&mut self, valid: &Port) -> Result<(), String> {
        for _ in 0..valid.memory.len() {
            let mut port = valid.clone();
            let near = self.random.below(port.memory.len());
            for _ in 0..2 + self.random.below(3) {
                let at = if self.random.chance(500) {
                    near + self.random.below(14)
                } else {
                    self.random.below(port.memory.len())
                };
                let at = at.min(port.memory.len() - 1);
                port.memory[at] = self.other_value(port.memory[at], &valid.memory);
            }
            self.state(port, valid)?;
        }
        Ok(())
    }

    /// A node twice in a list, or in two: walks come to it again.
    fn repeated_entries(&mut self, valid: &Port) -> Result<(), String> {
        let Record(words) = valid.record;
        // The children's entries begin behind fifteen words a node.
        let (first, entries) = (15 * LIMITS.nodes as usize, words[10] as usize);
        for at in first..first + entries {
            for from in [at - 1, at + 1, first + self.random.below(entries)] {
                let mut port = valid.clone();
                port.memory[at] = valid.memory[from];
                self.state(port, valid)?;
            }
        }
        Ok(())
    }

    /// Each number of the record in turn, then several, also with a word of memory changed.
    fn forged_records(&mut self, valid: &Port) -> Result<(), String> {
        let Record(words) = valid.record;
        for at in 0..words.len() {
            for value in self.other_values(words[at], &words) {
                let mut port = valid.clone();
                port.record.0[at] = value;
                self.state(port, valid)?;
            }
        }
        for _ in 0..60 {
            let mut port = valid.clone();
            for _ in 0..1 + self.random.below(4) {
                let at = self.random.below(words.len());
                port.record.0[at] = self.other_value(words[at], &words);
            }
            let at = self.random.below(port.memory.len());
            port.memory[at] = self.other_value(port.memory[at], &valid.memory);
            self.state(port, valid)?;
        }
        Ok(())
    }

    /// Values for a word: its neighbours, one bit changed, the ends of the fields, and words that stand elsewhere.
    fn other_values(&mut self, word: u64, others: &[u64]) -> Vec<u64> {
        let mut values = vec![0, 1, word.wrapping_add(1), word.wrapping_sub(1), word ^ (1 << 32), u64::MAX];
        values.push(word ^ (1 << self.random.below(64)));
        values.push(self.random.below(64) as u64);
        values.push(self.random.pick(others));
        values.push(self.random.pick(&[u64::from(u32::MAX), 1 << 32, (1 << 32) + 1]));
        values.sort_unstable();
        values.dedup();
        values.retain(|value| *value != word);
        values
    }

    fn other_value(&mut self, word: u64, others: &[u64]) -> u64 {
        let values = self.other_values(word, others);
        self.random.pick(&values)
    }

    fn state(&mut self, mut port: Port, valid: &Port) -> Result<(), String> {
        let due = Due::of(&port);
        self.tally.states += 1;
        match due {
            Due::BadBuffers { .. } => self.tally.refused += 1,
            Due::Damaged => self.tally.broken += 1,
            Due::AnyOther => self.tally.sound += 1,
        }
        let before = port.clone();
        for call in self.calls(valid) {
            self.tally.calls += 1;
            let told =
                if call.is_edit() { self.edit(&mut port, &before, &call, due) } else { read(&mut port, &call, due) };
            told.map_err(|fault| format!("{call}: {fault}\n{:?}\n{:?}", before.record, before.memory))?;
        }
        self.walk(&mut port, valid).map_err(|fault| format!("{fault}\n{:?}\n{:?}", before.record, before.memory))
    }

    /// From a node, and from positions made up in the valid document and in the state.
    fn walk(&mut self, port: &mut Port, valid: &Port) -> Result<(), String> {
        let positions = [&mut valid.clone(), &mut *port].map(|port| walks::made_up(&mut self.random, port));
        let from = if self.random.chance(300) { NodeId { index: 0, generation: 0 } } else { self.handle(valid) };
        self.tally.walks.add(&walks::in_any_memory(port, from, &positions)?);
        Ok(())
    }

    /// One editing call on a state, which is as it was after it.
    fn edit(&mut self, port: &mut Port, before: &Port, call: &Call, due: Due) -> Result<(), String> {
        let dirt = self.random.next();
        port.scratch.fill(dirt);
        let answer = port.call(call);
        if !due.is(&answer) {
            return Err(format!("{answer}, and the rules broken are {:?}", before.laid_out().broken_rules()));
        }
        let left = if matches!(due, Due::BadBuffers { .. }) { dirt } else { 0 };
        if port.scratch.iter().any(|word| *word != left) {
            return Err("scratch is left as it should not be".to_string());
        }
        if matches!(answer, Answer::Refused(_)) {
            let same = port.memory == before.memory && port.record == before.record;
            return if same { Ok(()) } else { Err("a refused call changed the document".to_string()) };
        }
        if port.laid_out().broken_rules() != Some(Vec::new()) {
            return Err("an accepted call left a damaged document".to_string());
        }
        port.memory.copy_from_slice(&before.memory);
        port.record = before.record;
        Ok(())
    }

    /// Every call once, with nodes of the valid document and some that it never had.
    fn calls(&mut self, valid: &Port) -> Vec<Call> {
        let mut any = || self.handle(valid);
        let (a, b, c, d) = (any(), any(), any(), any());
        let index = self.random.below(8) as u64;
        let bytes = |text: &str| text.as_bytes().to_vec();
        vec![
            Call::AppendElement { parent: a, namespace: None, local: bytes("zone") },
            Call::AppendText { parent: b, text: bytes("blend") },
            Call::AppendComment { parent: c, text: bytes("c") },
            Call::AppendPi { parent: d, target: bytes("t"), data: bytes("d") },
            Call::SetText { node: a, text: bytes("other") },
            Call::SetAttribute { element: b, namespace: None, local: bytes("a"), value: bytes("v") },
            Call::RemoveAttribute { element: c, namespace: None, local: bytes("a") },
            Call::DeclareNamespace { element: d, prefix: Some(bytes("p")), uri: bytes("u") },
            Call::Remove(a),
            Call::Detach(b),
            Call::Reparent { node: c, parent: d },
            Call::InsertAt { parent: a, index, child: b },
            Call::DocumentOrder,
            Call::Compact,
            Call::Root,
            Call::RootElement,
            Call::Nodes,
            Call::Kind(a),
            Call::Parent(b),
            Call::Children(c),
            Call::IsElement(d),
            Call::AttributeNodes(a),
            Call::NamespaceNodes(b),
            Call::OrderKey(c),
            Call::Descendants(d),
            Call::Name(index),
        ]
    }

    /// A handle of a slot, mostly with the generation that the slot has.
    fn handle(&mut self, valid: &Port) -> NodeId {
        let slot = self.random.below(24);
        let generation = u32::try_from(valid.memory[slot]).unwrap_or(0);
        let generation = if self.random.chance(900) { generation } else { self.random.below(5) as u32 };
        NodeId { index: slot as u32, generation }
    }
}

/// A reading call tests the limits and the memory's length, and changes nothing: the wrapper lends it the memory to read only.
fn read(port: &mut Port, call: &Call, due: Due) -> Result<(), String> {
    let answer = port.call(call);
    if (answer == Answer::Refused(BAD_BUFFERS)) == (due == Due::BadBuffers { reading: true }) {
        Ok(())
    } else {
        Err(format!("{answer} by a reading call"))
    }
}
