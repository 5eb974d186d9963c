//! Bytes for names, texts, URIs and prefixes: mostly plain ones, and at a chosen share those at the edges of the productions and those that aren't UTF-8.

use crate::calls::{Bytes, Optional};
use crate::chars::{CHAR, CHAR_11, NAME_MORE, NAME_START, XML, XMLNS};
use crate::random::Random;

/// Few names, so that they meet again.
const NAMES: [&str; 10] = ["a", "b", "c", "zone", "blend", "note", "x-1", "xml", "_", "é"];

/// Names that some call treats apart.
const RESERVED: [&str; 14] =
    ["", "xmlns", "xml", "XML", "XmL", "xMLNS", "xml-x", "a:b", ":", ":a", "a:", "1a", "-a", "a b"];

const URIS: [&str; 8] = ["", "u", "v", "urn:zone", XML, XMLNS, "http://www.w3.org/2000/xmlns", "é"];

const PREFIXES: [&str; 12] = ["", "p", "q", "r", "zone", "xml", "xmlns", "XML", "Xmlns", "1", "p:q", "é"];

/// Each makes another rule of comments or of instruction data decide.
const MARKS: [&str; 20] = [
    "-", "--", "a-", "-a", "a--b", "a-b-", "- -", "--a", "?>", "?", ">", "? >", "a?>b", "??>", "?>?", "\r", "a\r",
    "\n", "\t", "\u{1}",
];

/// Every way in which bytes fail to be UTF-8: continuations alone, overlong forms, surrogates, too large, cut short, and bytes that begin nothing.
const NOT_UTF8: [&[u8]; 24] = [
    b"\x80",
    b"\xbf",
    b"\xc0\x80",
    b"\xc1\xbf",
    b"\xc2",
    b"\xc2\x41",
    b"\xdf\xc0",
    b"\xe0\x80\x80",
    b"\xe0\x9f\xbf",
    b"\xe1\x80",
    b"\xe2\x82\x41",
    b"\xed\xa0\x80",
    b"\xed\xbf\xbf",
    b"\xef\xbf",
    b"\xf0\x80\x80\x80",
    b"\xf0\x8f\xbf\xbf",
    b"\xf0\x9f\x98",
    b"\xf1\x80\x80\x41",
    b"\xf4\x90\x80\x80",
    b"\xf5\x80\x80\x80",
    b"\xf8\x88\x80\x80\x80",
    b"\xfe",
    b"\xff",
    b"\xc3\x28",
];

/// The last and the first characters of each length in UTF-8.
const LENGTH_EDGES: [(u32, u32); 4] = [(0x0, 0x7F), (0x80, 0x7FF), (0x800, 0xFFFF), (0x10000, 0x10FFFF)];

/// The characters at each end of each range of the productions, and those beside them.
pub(crate) fn edges() -> Vec<char> {
    let ranges = [CHAR, CHAR_11, NAME_START, NAME_MORE, &LENGTH_EDGES].concat();
    let around = |(low, high): (u32, u32)| [low.wrapping_sub(1), low, high, high + 1];
    let mut edges: Vec<char> = ranges.into_iter().flat_map(around).filter_map(char::from_u32).collect();
    edges.sort_unstable();
    edges.dedup();
    edges
}

/// How strange bytes may be.
pub(crate) struct Texts {
    edges: Vec<char>,
    /// Those from the edges, in a thousand.
    odd: usize,
    /// Those that aren't UTF-8, in a thousand.
    broken: usize,
}

impl Texts {
    pub(crate) fn new(odd: usize, broken: usize) -> Self {
        Texts { edges: edges(), odd, broken }
    }

    /// Any code point but a surrogate, most often one from an edge.
    fn character(&self, random: &mut Random) -> char {
        let any = u32::try_from(random.below(0x11_0000)).expect("a code point");
        match char::from_u32(any) {
            Some(c) if random.chance(200) => c,
            _ => random.pick(&self.edges),
        }
    }

    /// `given`, or in its place bytes that aren't UTF-8.
    fn perhaps_broken(&self, random: &mut Random, given: String) -> Bytes {
        if !random.chance(self.broken) {
            return given.into_bytes();
        }
        let around = ["", "a", "é", "\u{0}"];
        [random.pick(&around).as_bytes(), random.pick(&NOT_UTF8), random.pick(&around).as_bytes()].concat()
    }

    pub(crate) fn name(&self, random: &mut Random) -> Bytes {
        let name = if random.chance(self.odd) { self.odd_name(random) } else { random.pick(&NAMES).to_string() };
        self.perhaps_broken(random, name)
    }

    fn odd_name(&self, random: &mut Random) -> String {
        let c = self.character(random);
        match random.below(6) {
            0 => c.to_string(),
            1 => format!("a{c}"),
            2 => format!("{c}a"),
            3 => format!("a{c}{}", self.character(random)),
            4 => "n".repeat(1 + random.below(40)),
            _ => random.pick(&RESERVED).to_string(),
        }
    }

    /// `blank` asks for what the Root takes.
    pub(crate) fn text(&self, random: &mut Random, blank: bool) -> Bytes {
        let text = if random.chance(self.odd) {
            self.odd_text(random)
        } else if blank {
            random.pick(&["", " ", "\t", "\n", " \n\t "]).to_string()
        } else {
            plain_text(random)
        };
        self.perhaps_broken(random, text)
    }

    fn odd_text(&self, random: &mut Random) -> String {
        let c = self.character(random);
        match random.below(5) {
            0 => c.to_string(),
            1 => format!("soft {c}"),
            2 => format!("{c}{}", self.character(random)),
            3 => "t".repeat(random.below(600)),
            _ => random.pick(&MARKS).to_string(),
        }
    }

    /// The text of a comment, or the data of an instruction.
    pub(crate) fn literal(&self, random: &mut Random) -> Bytes {
        let text = if random.chance(self.odd) {
            match random.below(3) {
                0 => random.pick(&MARKS).to_string(),
                1 => random.pick(&MARKS).to_string() + random.pick(&MARKS),
                _ => self.odd_text(random),
            }
        } else {
            plain_text(random)
        };
        self.perhaps_broken(random, text)
    }

    pub(crate) fn namespace(&self, random: &mut Random) -> Optional {
        if random.chance(400) {
            return None;
        }
        Some(self.uri(random))
    }

    pub(crate) fn uri(&self, random: &mut Random) -> Bytes {
        let uri = if !random.chance(self.odd) {
            random.pick(&URIS[..4]).to_string()
        } else if random.chance(500) {
            random.pick(&URIS).to_string()
        } else {
            self.odd_text(random)
        };
        self.perhaps_broken(random, uri)
    }

    pub(crate) fn prefix(&self, random: &mut Random) -> Optional {
        if random.chance(150) {
            return None;
        }
        let prefix = if !random.chance(self.odd) {
            random.pick(&PREFIXES[..5]).to_string()
        } else if random.chance(500) {
            random.pick(&PREFIXES).to_string()
        } else {
            self.odd_name(random)
        };
        Some(self.perhaps_broken(random, prefix))
    }
}

fn plain_text(random: &mut Random) -> String {
    let words = ["", "t", "soft", "hard water", "é", "14 dH", "mg/l", "\u{1F4A7}"];
    match random.below(12) {
        0 => "w".repeat(random.below(30)),
        1 => format!("{} {}", random.pick(&words), random.pick(&words)),
        _ => random.pick(&words).to_string(),
    }
}
