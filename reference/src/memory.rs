//! A document as the port's lent memory (docs/LAYOUT.md), to judge it by the structure rules whatever its words are: what Damaged is compared with.

use crate::driver::Reference;
use crate::limits::{GREATEST, Limits, OWN};
use crate::parse::parse;
use crate::rules;
use crate::state::{Arena, ArenaState, Block, Data, Node, Slot, State, Text};
use crate::tree::{Document, NodeId};

/// The record that goes with a memory, and its words.
#[derive(Clone, Debug, PartialEq, Eq)]
pub struct Memory {
    /// In the order of a `limits` line.
    pub limits: [u64; 8],
    /// In the order of a dump's counts.
    pub counts: [u64; 10],
    pub current: bool,
    pub words: Vec<u64>,
}

/// One node's words.
const RECORD: usize = 12;

/// Where each region starts.
struct Regions {
    free: usize,
    records: usize,
    order: usize,
    ids: [usize; 3],
    capacities: [usize; 3],
    text_ends: usize,
    free_texts: usize,
    text_bytes: usize,
    name_ends: usize,
    name_bytes: usize,
    end: usize,
}

fn size(number: u64) -> usize {
    usize::try_from(number).unwrap_or(usize::MAX)
}

impl Regions {
    /// Of limits that are at most the greatest.
    fn of(limits: &Limits) -> Regions {
        let nodes = size(limits.nodes);
        let entries = limits.entries.map(size);
        let first = 15 * nodes;
        let ids = [first, first + 2 * entries[0], first + 2 * (entries[0] + entries[1])];
        let text_ends = ids[2] + 2 * entries[2];
        let text_bytes = text_ends + 2 * size(limits.texts);
        let name_ends = text_bytes + size(limits.text_bytes);
        let name_bytes = name_ends + 2 * size(limits.names);
        Regions {
            free: nodes,
            records: 2 * nodes,
            order: 14 * nodes,
            ids,
            capacities: [ids[0] + entries[0], ids[1] + entries[1], ids[2] + entries[2]],
            text_ends,
            free_texts: text_ends + size(limits.texts),
            text_bytes,
            name_ends,
            name_bytes,
            end: name_bytes + size(limits.name_bytes),
        }
    }
}

impl Memory {
    /// What the port's memory may be after the calls of a list; words that document 01 leaves open are 0. Lines that are no call are passed over.
    #[must_use]
    pub fn after(list: &str) -> Memory {
        let mut reference = Reference::fresh(OWN);
        for line in list.lines().filter_map(|line| parse(line.as_bytes())) {
            reference.answer(&line);
        }
        Memory::of(&reference.document, &reference.limits)
    }

    /// The same of a document that the Rust holds.
    pub(crate) fn of(document: &Document, limits: &Limits) -> Memory {
        let state = State::of(document);
        Memory {
            limits: limits.numbers(),
            counts: counts(&state),
            current: state.order.is_some(),
            words: words(&state, limits),
        }
    }

    /// The numbers of the rules that the memory breaks; none at all where test 4 refuses its limits or its length.
    #[must_use]
    pub fn broken_rules(&self) -> Option<Vec<usize>> {
        let reader = self.reader()?;
        let mut broken = rules::broken(&reader.state(self.current), &reader.limits);
        for (number, holds) in [(1, reader.counts_and_order_fit()), (8, reader.lengths_add())] {
            if !holds && !broken.contains(&number) {
                broken.push(number);
            }
        }
        broken.sort_unstable();
        Some(broken)
    }

    /// The document that words which keep the rules hold, its bytes too; none where test 4 refuses them.
    #[cfg(feature = "port")]
    pub(crate) fn state(&self) -> Option<State> {
        let reader = self.reader()?;
        let mut state = reader.state(self.current);
        let texts = reader.part(reader.regions.text_bytes, reader.count(7));
        fill(state.texts.iter_mut(), texts);
        let names = reader.part(reader.regions.name_bytes, reader.count(9));
        fill(state.names.iter_mut().flat_map(|(namespace, local)| [namespace, local]), names);
        for text in state.slots.iter_mut().filter_map(|slot| slot.node.as_mut()).flat_map(|node| node.data.texts_mut())
        {
            text.bytes = text.slot.map(|slot| state.texts[size(slot)].clone()).unwrap_or_default();
        }
        Some(state)
    }

    /// The handles that resolve, in slot order; none where test 4 refuses the limits or the length.
    #[cfg(feature = "port")]
    pub(crate) fn live_nodes(&self) -> Option<Vec<NodeId>> {
        let state = self.reader()?.state(self.current);
        Some(rules::live(&state).map(|(id, _)| id).collect())
    }

    /// How many words of scratch the limits ask for; 0 where test 4 refuses them.
    #[cfg(feature = "port")]
    pub(crate) fn scratch_words(&self) -> usize {
        self.reader().map_or(0, |reader| size(reader.limits.scratch_words()))
    }

    /// Start and length of each run of words in use.
    #[cfg(feature = "port")]
    pub(crate) fn parts_in_use(&self) -> Vec<(usize, usize)> {
        let Some(reader) = self.reader() else { return Vec::new() };
        let Regions { free, records, order, ids, capacities, .. } = reader.regions;
        let Regions { text_ends, free_texts, text_bytes, name_ends, name_bytes, .. } = reader.regions;
        let count = |number: usize| reader.count(number);
        let made = count(0);
        let mut parts = vec![(0, made), (free, count(1)), (records, RECORD * made), (order, made)];
        for arena in 0..3 {
            parts.extend([(ids[arena], count(2 + arena)), (capacities[arena], count(2 + arena))]);
        }
        parts.extend([(text_ends, count(5)), (free_texts, count(6)), (text_bytes, count(7))]);
        parts.extend([(name_ends, 2 * count(8)), (name_bytes, count(9))]);
        parts
    }

    fn reader(&self) -> Option<Reader<'_>> {
        let limits =
            Limits::from_numbers(&self.limits).filter(|limits| limits.nodes > 0 && limits.within(&GREATEST))?;
        let regions = Regions::of(&limits);
        let words = self.words.get(..regions.end)?;
        Some(Reader { limits, counts: self.counts, regions, words })
    }
}

// ---- from words

struct Reader<'a> {
    limits: Limits,
    counts: [u64; 10],
    regions: Regions,
    words: &'a [u64],
}

impl Reader<'_> {
    /// What each count is held against.
    fn greatest_counts(&self) -> [u64; 10] {
        let Limits { nodes, entries: [a, b, c], texts, text_bytes, names, name_bytes } = self.limits;
        [nodes, nodes, a, b, c, texts, texts, text_bytes, names, name_bytes]
    }

    /// A count as it is read: at most its limit.
    fn count(&self, number: usize) -> usize {
        size(self.counts[number].min(self.greatest_counts()[number]))
    }

    fn part(&self, start: usize, len: usize) -> &[u64] {
        &self.words[start..start + len]
    }

    fn counts_and_order_fit(&self) -> bool {
        let fit = self.counts.iter().zip(self.greatest_counts()).all(|(count, limit)| *count <= limit);
        fit && self.part(self.regions.order, self.count(0)).iter().all(|word| is_narrow(*word))
    }

    /// Where the text of each slot ends, counted from the first byte. It begins where the one before ends.
    fn text_ends(&self) -> &[u64] {
        self.part(self.regions.text_ends, self.count(5))
    }

    /// Where the namespace of each name ends, and its local part, likewise.
    fn name_ends(&self) -> &[u64] {
        self.part(self.regions.name_ends, 2 * self.count(8))
    }

    fn lengths_add(&self) -> bool {
        reach(self.text_ends(), self.counts[7]) && reach(self.name_ends(), self.counts[9])
    }

    fn state(&self, current: bool) -> State {
        let made = self.count(0);
        let names = pieces(&lengths(self.name_ends()));
        State {
            slots: (0..made).map(|slot| self.slot(slot)).collect(),
            free: self.part(self.regions.free, self.count(1)).to_vec(),
            arenas: Arena::ALL.map(|arena| self.arena(arena)),
            texts: pieces(&lengths(self.text_ends())),
            free_texts: self.part(self.regions.free_texts, self.count(6)).to_vec(),
            text_bytes: self.counts[7],
            names: names.chunks(2).map(|pair| (pair[0].clone(), pair[1].clone())).collect(),
            name_bytes: self.counts[9],
            order: current.then(|| self.part(self.regions.order, made).to_vec()),
        }
    }

    fn arena(&self, arena: Arena) -> ArenaState {
        let length = self.count(2 + arena as usize);
        let capacities = self.part(self.regions.capacities[arena as usize], length);
        let records = (0..).zip(capacities.iter().copied()).filter(|(_, capacity)| *capacity > 0);
        ArenaState { length: length as u64, records: records.collect() }
    }

    fn slot(&self, slot: usize) -> Slot {
        let generation = self.words[slot];
        let record = self.part(self.regions.records + RECORD * slot, RECORD);
        let live = generation.is_multiple_of(2);
        Slot { generation, node: if live { self.node(record) } else { None } }
    }

    /// None where the words are no node: a kind that is none, a word too wide, or one that the kind has no use for and isn't 0.
    fn node(&self, record: &[u64]) -> Option<Node> {
        let &[kind, name, first, second, parent, generation, ref ranges @ ..] = record else {
            return None;
        };
        let is_element = kind == 1;
        let has_children = kind != 2 && kind != 5;
        let used = [has_children, is_element, is_element];
        let fits = kind <= 6
            && (kind == 1 || kind == 2 || name == 0)
            && (kind >= 2 || first == 0)
            && (kind >= 5 || second == 0)
            && (parent > 0 || generation == 0)
            && ranges.chunks(2).zip(used).all(|(range, used)| used || range == [0, 0])
            && is_narrow(name)
            && ranges.iter().all(|word| is_narrow(*word));
        let parent = if parent == 0 { None } else { Some(narrow_handle(parent - 1, generation)?) };
        let (first, second) = (text(first)?, text(second)?);
        fits.then(|| Node {
            data: data(kind, name, first, second),
            parent,
            blocks: Arena::ALL.map(|arena| {
                let range = &ranges[2 * arena as usize..];
                (arena == Arena::Children || is_element).then(|| self.block(arena, range[0], range[1]))
            }),
        })
    }

    /// A block outside its arena shows no entries.
    fn block(&self, arena: Arena, start: u64, len: u64) -> Block {
        let limit = self.limits.entries[arena as usize];
        let inside = start.checked_add(len).is_some_and(|end| end <= limit);
        let shown = if inside { size(len) } else { 0 };
        let first = self.regions.ids[arena as usize] + if inside { size(start) } else { 0 };
        Block { start, len, ids: self.part(first, shown).iter().map(|word| handle(*word)).collect() }
    }
}

fn is_narrow(word: u64) -> bool {
    u32::try_from(word).is_ok()
}

fn narrow_handle(index: u64, generation: u64) -> Option<NodeId> {
    Some(NodeId { index: u32::try_from(index).ok()?, generation: u32::try_from(generation).ok()? })
}

/// Any word is some handle: the index below, the generation above.
fn handle(word: u64) -> NodeId {
    NodeId { index: (word & u64::from(u32::MAX)) as u32, generation: (word >> 32) as u32 }
}

/// A text's word counts from 1; 0 is the empty text without a slot.
fn text(word: u64) -> Option<Text> {
    let slot = word.checked_sub(1);
    slot.is_none_or(is_narrow).then(|| Text { slot, bytes: Vec::new() })
}

fn data(kind: u64, name: u64, first: Text, second: Text) -> Data {
    match kind {
        0 => Data::Root,
        1 => Data::Element { name },
        2 => Data::Attr { name, value: first },
        3 => Data::Text(first),
        4 => Data::Comment(first),
        5 => Data::Namespace { prefix: first, uri: second },
        _ => Data::Pi { target: first, data: second },
    }
}

/// No end is below the one before, and the last is the number of bytes used.
fn reach(ends: &[u64], used: u64) -> bool {
    ends.is_sorted() && ends.last().copied().unwrap_or(0) == used
}

/// The lengths of pieces with these ends; none where an end is below the one before.
fn lengths(ends: &[u64]) -> Vec<u64> {
    let starts = std::iter::once(0).chain(ends.iter().copied());
    ends.iter().zip(starts).map(|(end, start)| end.saturating_sub(start)).collect()
}

/// Bytes of these lengths, whatever they are: no rule reads them. Of a length that no memory has, one; the lengths don't add up then.
fn pieces(lengths: &[u64]) -> Vec<Vec<u8>> {
    let most = GREATEST.text_bytes;
    lengths.iter().map(|length| vec![0; if *length <= most { size(*length) } else { 1 }]).collect()
}

/// Puts the bytes, one a word, into pieces of their lengths, one after another.
#[cfg(feature = "port")]
fn fill<'a>(pieces: impl Iterator<Item = &'a mut Vec<u8>>, words: &[u64]) {
    let mut bytes = words.iter().map(|word| (word & 0xff) as u8);
    for piece in pieces {
        for byte in piece {
            *byte = bytes.next().unwrap_or(0);
        }
    }
}

// ---- to words

fn counts(state: &State) -> [u64; 10] {
    let [a, b, c] = state.arenas.each_ref().map(|arena| arena.length);
    let lengths = [state.slots.len(), state.free.len(), state.texts.len(), state.free_texts.len(), state.names.len()];
    let [slots, free, texts, free_texts, names] = lengths.map(|length| length as u64);
    [slots, free, a, b, c, texts, free_texts, state.text_bytes, names, state.name_bytes]
}

fn words(state: &State, limits: &Limits) -> Vec<u64> {
    let regions = Regions::of(limits);
    let mut words = vec![0; regions.end];
    let generations: Vec<u64> = state.slots.iter().map(|slot| slot.generation).collect();
    put(&mut words, 0, &generations);
    put(&mut words, regions.free, &state.free);
    put(&mut words, regions.order, state.order.as_deref().unwrap_or_default());
    for (number, slot) in state.slots.iter().enumerate() {
        if let Some(node) = &slot.node {
            put(&mut words, regions.records + RECORD * number, &record(node));
            put_blocks(&mut words, &regions, node);
        }
    }
    for arena in Arena::ALL {
        for (start, capacity) in &state.arenas[arena as usize].records {
            words[regions.capacities[arena as usize] + size(*start)] = *capacity;
        }
    }
    put(&mut words, regions.free_texts, &state.free_texts);
    let names: Vec<Vec<u8>> =
        state.names.iter().flat_map(|(namespace, local)| [namespace.clone(), local.clone()]).collect();
    put(&mut words, regions.text_ends, &ends(&state.texts));
    put_bytes(&mut words, regions.text_bytes, &state.texts);
    put(&mut words, regions.name_ends, &ends(&names));
    put_bytes(&mut words, regions.name_bytes, &names);
    words
}

fn put(words: &mut [u64], start: usize, part: &[u64]) {
    words[start..start + part.len()].copy_from_slice(part);
}

fn put_blocks(words: &mut [u64], regions: &Regions, node: &Node) {
    for (block, ids) in node.blocks.iter().zip(regions.ids) {
        if let Some(block) = block {
            let entries: Vec<u64> = block.ids.iter().map(|id| handle_word(*id)).collect();
            put(words, ids + size(block.start), &entries);
        }
    }
}

fn ends(pieces: &[Vec<u8>]) -> Vec<u64> {
    let mut end = 0;
    let mut next = |piece: &Vec<u8>| {
        end += piece.len() as u64;
        end
    };
    pieces.iter().map(&mut next).collect()
}

/// One byte a word.
fn put_bytes(words: &mut [u64], start: usize, pieces: &[Vec<u8>]) {
    let joined: Vec<u64> = pieces.concat().into_iter().map(u64::from).collect();
    put(words, start, &joined);
}

fn handle_word(id: NodeId) -> u64 {
    u64::from(id.index) + (u64::from(id.generation) << 32)
}

fn record(node: &Node) -> [u64; RECORD] {
    let (kind, name) = match node.data {
        Data::Root => (0, 0),
        Data::Element { name } => (1, name),
        Data::Attr { name, .. } => (2, name),
        Data::Text(_) => (3, 0),
        Data::Comment(_) => (4, 0),
        Data::Namespace { .. } => (5, 0),
        Data::Pi { .. } => (6, 0),
    };
    let mut texts = node.data.texts().into_iter().map(|text| text.slot.map_or(0, |slot| slot + 1));
    let (first, second) = (texts.next().unwrap_or(0), texts.next().unwrap_or(0));
    let (parent, generation) = node.parent.map_or((0, 0), |id| (u64::from(id.index) + 1, u64::from(id.generation)));
    let [[a, b], [c, d], [e, f]] =
        node.blocks.each_ref().map(|block| block.as_ref().map_or([0, 0], |block| [block.start, block.len]));
    [kind, name, first, second, parent, generation, a, b, c, d, e, f]
}
