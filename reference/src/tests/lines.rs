//! What is a line of the format and what isn't.

use crate::noise::SLIPS;
use crate::parse::{LONGEST, parse};
use crate::{Options, run};

fn answers(list: &[u8]) -> String {
    let mut output = Vec::new();
    run(list, &mut output, Options { check: true, coverage: false }).expect("nothing fails to be read or written");
    String::from_utf8(output).expect("answers are text")
}

#[test]
fn a_slip_is_no_line() {
    for slip in SLIPS {
        assert_eq!(parse(slip.as_bytes()), None, "{slip}");
    }
    assert_eq!(parse(b"append_text 0:0 x20\r"), None);
    assert_eq!(parse(b"append_text 0:0 x\xff"), None);
}

#[test]
fn every_line_is_counted_and_a_bad_one_changes_nothing() {
    assert_eq!(answers(b"# comment\n\nroot\nroots\n\nnodes"), "h 0:0\n? 4\nl 0:0\n");
}

#[test]
fn a_line_above_the_greatest_length_is_bad() {
    let comment = "append_comment 0:0 x".to_string() + &"61".repeat((LONGEST - 20) / 2);
    assert_eq!(comment.len(), LONGEST);
    assert_eq!(answers(comment.as_bytes()), "! 14\n");
    assert_eq!(answers((comment + "61\nroot\n").as_bytes()), "? 1\nh 0:0\n");
    let silent = "#".repeat(LONGEST);
    assert_eq!(answers(silent.as_bytes()), "");
    assert_eq!(answers((silent + "#").as_bytes()), "? 1\n");
}
