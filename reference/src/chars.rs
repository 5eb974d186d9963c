//! The productions of XML 1.0 (fifth edition) and XML 1.1, as tables of ranges. Written from the recommendations and not from the originals, which are tested against them.

type Ranges = [(u32, u32)];

/// XML 1.0, production 2, `Char`.
pub(crate) const CHAR: &Ranges = &[(0x9, 0xA), (0xD, 0xD), (0x20, 0xD7FF), (0xE000, 0xFFFD), (0x10000, 0x10FFFF)];

/// XML 1.1, production 2, `Char`.
pub(crate) const CHAR_11: &Ranges = &[(0x1, 0xD7FF), (0xE000, 0xFFFD), (0x10000, 0x10FFFF)];

/// XML 1.0, production 4, `NameStartChar`.
pub(crate) const NAME_START: &Ranges = &[
    (0x3A, 0x3A),
    (0x41, 0x5A),
    (0x5F, 0x5F),
    (0x61, 0x7A),
    (0xC0, 0xD6),
    (0xD8, 0xF6),
    (0xF8, 0x2FF),
    (0x370, 0x37D),
    (0x37F, 0x1FFF),
    (0x200C, 0x200D),
    (0x2070, 0x218F),
    (0x2C00, 0x2FEF),
    (0x3001, 0xD7FF),
    (0xF900, 0xFDCF),
    (0xFDF0, 0xFFFD),
    (0x10000, 0xEFFFF),
];

/// XML 1.0, production 4a, `NameChar`, without the start characters.
pub(crate) const NAME_MORE: &Ranges = &[(0x2D, 0x2E), (0x30, 0x39), (0xB7, 0xB7), (0x300, 0x36F), (0x203F, 0x2040)];

pub(crate) const XMLNS: &str = "http://www.w3.org/2000/xmlns/";
pub(crate) const XML: &str = "http://www.w3.org/XML/1998/namespace";

fn is_in(c: char, ranges: &Ranges) -> bool {
    ranges.iter().any(|(low, high)| (*low..=*high).contains(&u32::from(c)))
}

pub(crate) fn is_name_start(c: char) -> bool {
    is_in(c, NAME_START)
}

pub(crate) fn is_name_char(c: char) -> bool {
    is_in(c, NAME_START) || is_in(c, NAME_MORE)
}

/// Namespaces in XML 1.0: a `Name` without a colon.
pub(crate) fn is_ncname(name: &str) -> bool {
    !name.contains(':') && name.starts_with(is_name_start) && name.chars().all(is_name_char)
}

/// What text, an attribute value and a URI may be.
pub(crate) fn is_text(text: &str) -> bool {
    text.chars().all(|c| is_in(c, CHAR_11))
}

/// What a comment and the data of an instruction may be, before their own rules.
fn is_literal(text: &str) -> bool {
    text.chars().all(|c| is_in(c, CHAR) && c != '\r')
}

pub(crate) fn is_comment(text: &str) -> bool {
    is_literal(text) && !text.contains("--") && !text.ends_with('-')
}

pub(crate) fn is_data(text: &str) -> bool {
    is_literal(text) && !text.contains("?>")
}

pub(crate) fn is_target(target: &str) -> bool {
    is_ncname(target) && target.to_ascii_lowercase() != "xml"
}

pub(crate) fn is_prefix(prefix: &str) -> bool {
    prefix.is_empty() || (is_ncname(prefix) && prefix != "xml" && prefix != "xmlns")
}

/// "Text under the Root is space, tab, newline only, or empty."
pub(crate) fn is_root_text(text: &str) -> bool {
    text.chars().all(|c| matches!(c, ' ' | '\t' | '\n'))
}
