//! The originals' classes of characters beside the productions, at every code point.

use crate::chars;
use crate::xml;

#[test]
fn the_classes_are_those_of_the_productions() {
    for c in '\0'..=char::MAX {
        assert_eq!(xml::is_name_start(c), chars::is_name_start(c), "{c:?}");
        assert_eq!(xml::is_name_char(c), chars::is_name_char(c), "{c:?}");
        let literal = xml::is_xml_char(c) && c != '\r' && c != '-';
        assert_eq!(literal, chars::is_comment(c.encode_utf8(&mut [0; 4])), "{c:?}");
        let text = !matches!(c, '\0' | '\u{fffe}' | '\u{ffff}');
        assert_eq!(text, chars::is_text(c.encode_utf8(&mut [0; 4])), "{c:?}");
    }
}
