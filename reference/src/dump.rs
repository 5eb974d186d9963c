//! A dump: the lines that show a whole state, written and read back.

use crate::answers::{handle, hex, row};
use crate::calls::Bytes;
use crate::parse::{bytes, handle as handle_of, number};
use crate::state::{Arena, ArenaState, Block, Data, Node, Slot, State, Text};
use crate::tree::NodeId;
use std::collections::BTreeMap;

/// The lines, the last without its newline.
pub(crate) fn write(state: &State) -> String {
    let mut lines = vec!["dump".to_string(), counts(state)];
    lines.extend(state.slots.iter().enumerate().map(|(index, slot)| slot_line(index, slot)));
    lines.push(row("free", &state.free, u64::to_string));
    lines.push(row("freetexts", &state.free_texts, u64::to_string));
    for (index, text) in state.texts.iter().enumerate() {
        lines.push(format!("text {index} {}", hex(text)));
    }
    for (index, (namespace, local)) in state.names.iter().enumerate() {
        lines.push(format!("name {index} {} {}", hex(namespace), hex(local)));
    }
    for (arena, which) in state.arenas.iter().zip(Arena::ALL) {
        lines.push(caps(arena, which));
    }
    lines.push(row("order", state.order.as_deref().unwrap_or_default(), u64::to_string));
    lines.push("end".to_string());
    lines.join("\n")
}

fn counts(state: &State) -> String {
    let [children, attributes, namespaces] = state.arenas.each_ref().map(|arena| arena.length);
    format!(
        "counts slots={} free={} children={children} attributes={attributes} namespaces={namespaces} \
         texts={} freetexts={} textbytes={} names={} namebytes={} current={}",
        state.slots.len(),
        state.free.len(),
        state.texts.len(),
        state.free_texts.len(),
        state.text_bytes,
        state.names.len(),
        state.name_bytes,
        u8::from(state.order.is_some())
    )
}

fn caps(arena: &ArenaState, which: Arena) -> String {
    let records: Vec<(&u64, &u64)> = arena.records.range(..arena.length).collect();
    row(&format!("caps {}", which.name()), &records, |(start, capacity)| format!("{start}:{capacity}"))
}

fn slot_line(index: usize, slot: &Slot) -> String {
    let Some(node) = &slot.node else {
        return format!("slot {index} {} free", slot.generation);
    };
    let parent = node.parent.map_or_else(|| "-".to_string(), handle);
    let mut line = format!("slot {index} {} {} parent={parent}", slot.generation, data(&node.data));
    for (block, which) in node.blocks.iter().zip(Arena::ALL) {
        if let Some(block) = block {
            line += &format!(" {}={}", which.name(), block_text(block));
        }
    }
    line
}

fn block_text(block: &Block) -> String {
    let ids: Vec<String> = block.ids.iter().map(|id| handle(*id)).collect();
    format!("{},{}[{}]", block.start, block.len, ids.join(","))
}

fn data(data: &Data) -> String {
    match data {
        Data::Root => "root".to_string(),
        Data::Element { name } => format!("element name={name}"),
        Data::Attr { name, value } => format!("attr name={name} value={}", text(value)),
        Data::Text(t) => format!("text text={}", text(t)),
        Data::Comment(t) => format!("comment text={}", text(t)),
        Data::Namespace { prefix, uri } => {
            format!("namespace prefix={} uri={}", text(prefix), text(uri))
        }
        Data::Pi { target, data } => format!("pi target={} data={}", text(target), text(data)),
    }
}

fn text(text: &Text) -> String {
    let slot = text.slot.map_or_else(|| "-".to_string(), |slot| slot.to_string());
    format!("{slot}/{}", hex(&text.bytes))
}

/// The state that these lines show, or none where they are no dump.
pub(crate) fn read(dump: &str) -> Option<State> {
    let mut lines = dump.lines();
    let mut state = State::default();
    (lines.next()? == "dump").then_some(())?;
    let counts = lines.next()?;
    for line in lines.by_ref() {
        if line == "end" {
            break;
        }
        read_line(&mut state, line, field(counts, "current")? == "1")?;
    }
    for which in Arena::ALL {
        state.arenas[which as usize].length = number(field(counts, which.name())?)?;
    }
    state.text_bytes = number(field(counts, "textbytes")?)?;
    state.name_bytes = number(field(counts, "namebytes")?)?;
    // What the counts say of the lists must be what the lists show.
    (self::counts(&state) == counts && lines.next().is_none()).then_some(state)
}

fn read_line(state: &mut State, line: &str, current: bool) -> Option<()> {
    let words: Vec<&str> = line.split(' ').collect();
    match words.as_slice() {
        ["slot", index, generation, node @ ..] => {
            (number(index)? == state.slots.len() as u64).then_some(())?;
            let generation = number(generation)?;
            state.slots.push(Slot { generation, node: read_node(node, line)? });
        }
        ["free", free @ ..] => state.free = numbers(free)?,
        ["freetexts", free @ ..] => state.free_texts = numbers(free)?,
        ["text", _, text] => state.texts.push(bytes(text)?),
        ["name", _, namespace, local] => state.names.push((bytes(namespace)?, bytes(local)?)),
        ["caps", arena, records @ ..] => {
            let which = Arena::ALL.into_iter().find(|which| which.name() == *arena)?;
            state.arenas[which as usize].records = read_records(records)?;
        }
        ["order", words @ ..] => state.order = if current { Some(numbers(words)?) } else { None },
        _ => return None,
    }
    Some(())
}

fn numbers(words: &[&str]) -> Option<Vec<u64>> {
    words.iter().map(|word| number(word)).collect()
}

fn read_records(words: &[&str]) -> Option<BTreeMap<u64, u64>> {
    let record = |word: &&str| {
        let (start, capacity) = word.split_once(':')?;
        Some((number(start)?, number(capacity)?))
    };
    words.iter().map(record).collect()
}

/// The outer option is of a line that can't be read, the inner one of a free slot.
fn read_node(words: &[&str], line: &str) -> Option<Option<Node>> {
    if words == ["free"] {
        return Some(None);
    }
    let data = read_data(words.first()?, line)?;
    let parent = match field(line, "parent")? {
        "-" => None,
        shown => Some(handle_of(shown)?),
    };
    let mut blocks = [None, None, None];
    for which in Arena::ALL {
        if let Some(shown) = field(line, which.name()) {
            blocks[which as usize] = Some(read_block(shown)?);
        }
    }
    Some(Some(Node { data, parent, blocks }))
}

fn read_data(kind: &str, line: &str) -> Option<Data> {
    let text = |name| read_text(field(line, name)?);
    let name = || number(field(line, "name")?);
    Some(match kind {
        "root" => Data::Root,
        "element" => Data::Element { name: name()? },
        "attr" => Data::Attr { name: name()?, value: text("value")? },
        "text" => Data::Text(text("text")?),
        "comment" => Data::Comment(text("text")?),
        "namespace" => Data::Namespace { prefix: text("prefix")?, uri: text("uri")? },
        "pi" => Data::Pi { target: text("target")?, data: text("data")? },
        _ => return None,
    })
}

fn read_text(shown: &str) -> Option<Text> {
    let (slot, text): (&str, Bytes) = shown.split_once('/').map(|(s, t)| Some((s, bytes(t)?)))??;
    let slot = if slot == "-" { None } else { Some(number(slot)?) };
    Some(Text { slot, bytes: text })
}

fn read_block(shown: &str) -> Option<Block> {
    let (range, ids) = shown.strip_suffix(']')?.split_once('[')?;
    let (start, len) = range.split_once(',')?;
    let ids: Option<Vec<NodeId>> = ids.split(',').filter(|id| !id.is_empty()).map(handle_of).collect();
    Some(Block { start: number(start)?, len: number(len)?, ids: ids? })
}

/// What stands behind `name=` in a line.
fn field<'a>(line: &'a str, name: &str) -> Option<&'a str> {
    line.split(' ').find_map(|word| word.strip_prefix(name)?.strip_prefix('='))
}
