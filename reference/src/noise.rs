//! Lines that are no call of the format, and those that answer nothing.

use crate::generate::Generator;
use crate::parse::LONGEST;

/// Each is one slip away from a call.
#[rustfmt::skip]
pub(crate) const SLIPS: [&str; 46] = [
    "append_element 0:0 -", "append_element 0:0 - x61 x", "append_element 0:0 - -", "append_element  0:0 - x61",
    "append_element 0:0 - x61 ", " append_element 0:0 - x61", "append_element\t0:0 - x61", "Append_element 0:0 - x61",
    "append_element 0:0 - x6", "append_element 0:0 - x6G", "append_element 0:0 - x6A", "append_element 0:0 - 61",
    "append_element 0:0 -- x61", "append_element 0:0 -x61 x61", "append_element 0 - x61", "append_element 0: - x61",
    "append_element :0 - x61", "append_element 0:0:0 - x61", "append_element -1:0 - x61", "append_element +0:0 - x61",
    "append_element 4294967296:0 - x61", "append_element 0:4294967296 - x61", "append_text 0:0 -", "append_text 0:0",
    "append_pi 0:0 x61", "set_text 0:0 x74 x74", "set_attribute 0:0 - x61", "declare_namespace 0:0 x75",
    "remove", "remove 0:0 0:0", "remove 0:0 #", "insert_at 0:0 18446744073709551616 1:0", "insert_at 0:0 -1 1:0",
    "insert_at 0:0 1:0", "insert_at 0:0 0x1 1:0", "compact 0:0", "document_order ", "descendants", "descendants_of 0:0",
    "name", "name 0:0", "dumps", "dump 1", "fresh 1", "limits 1 1 1 1 1 1 1", "limits 1 1 1 1 1 1 1 1 1",
];

/// What answers nothing.
const SILENT: [&str; 5] = ["", "# a comment", "#", "#fresh", "##  \t"];

/// One in so many lines of noise is of the greatest length or just above.
const LONG: usize = 400;

pub(crate) fn line(generator: &mut Generator) {
    if generator.random.below(LONG) == 0 {
        let line = long(generator);
        generator.raw(&line);
    } else if generator.random.chance(300) {
        let line = generator.random.pick(&SILENT);
        generator.raw(line);
    } else {
        let line = generator.random.pick(&SLIPS);
        generator.raw(line);
    }
}

/// A call of the greatest length, which is answered (the comment has no place, or a stale parent); else a line just above it.
fn long(generator: &mut Generator) -> String {
    let filled = |start: &str, length: usize| start.to_string() + &"61".repeat(length)[start.len()..];
    match generator.random.below(4) {
        0 => filled("append_comment 0:0 x", LONGEST),
        1 => filled("append_comment 4294967295:1 x", LONGEST),
        2 => filled("append_comment 0:0 x", LONGEST + 2),
        _ => filled("# a comment ", LONGEST + 1),
    }
}
