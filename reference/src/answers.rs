//! The lines that go out: one answer a call.

use crate::calls::Bytes;
use crate::tree::NodeId;
use std::fmt::{self, Write};

/// A block's start and length.
pub(crate) type Range = (u32, u32);

#[derive(Clone, Debug, PartialEq, Eq)]
pub(crate) enum Answer {
    /// Document 01's number.
    Refused(u8),
    Done,
    Handle(NodeId),
    Truth(bool),
    Nothing,
    List(Vec<NodeId>),
    /// One word a slot made.
    Order(Vec<u32>),
    Key(u32),
    Name(Bytes, Bytes),
    Kind(Kind),
    /// Children, attributes, namespaces; none where the kind has no such block.
    Ranges([Option<Range>; 3]),
    /// The lines of a dump.
    Dump(String),
}

/// A kind as the Rust shows it: a name as its number, a text as its bytes.
#[derive(Clone, Debug, PartialEq, Eq)]
pub(crate) enum Kind {
    Root,
    Element { name: u32, attributes: Range, namespaces: Range },
    Attr { name: u32, value: Bytes },
    Text(Bytes),
    Comment(Bytes),
    Namespace { prefix: Bytes, uri: Bytes },
    Pi { target: Bytes, data: Bytes },
}

pub(crate) fn hex(bytes: &[u8]) -> String {
    let mut out = String::from("x");
    for byte in bytes {
        write!(out, "{byte:02x}").expect("a String takes everything");
    }
    out
}

pub(crate) fn handle(id: NodeId) -> String {
    format!("{}:{}", id.index, id.generation)
}

fn range(range: Option<Range>) -> String {
    range.map_or_else(|| "-".to_string(), |(start, len)| format!("{start},{len}"))
}

/// A word, then each of the rest behind a space.
pub(crate) fn row<T>(first: &str, rest: &[T], show: impl Fn(&T) -> String) -> String {
    rest.iter().fold(first.to_string(), |line, word| line + " " + &show(word))
}

impl fmt::Display for Kind {
    fn fmt(&self, f: &mut fmt::Formatter<'_>) -> fmt::Result {
        match self {
            Kind::Root => f.write_str("root"),
            Kind::Element { name, attributes, namespaces } => {
                write!(f, "element {name} {} {}", range(Some(*attributes)), range(Some(*namespaces)))
            }
            Kind::Attr { name, value } => write!(f, "attr {name} {}", hex(value)),
            Kind::Text(text) => write!(f, "text {}", hex(text)),
            Kind::Comment(text) => write!(f, "comment {}", hex(text)),
            Kind::Namespace { prefix, uri } => write!(f, "namespace {} {}", hex(prefix), hex(uri)),
            Kind::Pi { target, data } => write!(f, "pi {} {}", hex(target), hex(data)),
        }
    }
}

impl fmt::Display for Answer {
    fn fmt(&self, f: &mut fmt::Formatter<'_>) -> fmt::Result {
        match self {
            Answer::Refused(number) => write!(f, "! {number}"),
            Answer::Done => f.write_str("ok"),
            Answer::Handle(id) => write!(f, "h {}", handle(*id)),
            Answer::Truth(truth) => write!(f, "b {}", u8::from(*truth)),
            Answer::Nothing => f.write_str("none"),
            Answer::List(ids) => f.write_str(&row("l", ids, |id| handle(*id))),
            Answer::Order(words) => f.write_str(&row("o", words, u32::to_string)),
            Answer::Key(key) => write!(f, "key {key}"),
            Answer::Name(namespace, local) => write!(f, "n {} {}", hex(namespace), hex(local)),
            Answer::Kind(kind) => write!(f, "k {kind}"),
            Answer::Ranges(ranges) => f.write_str(&row("r", ranges, |r| range(*r))),
            Answer::Dump(lines) => f.write_str(lines),
        }
    }
}
