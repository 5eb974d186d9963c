//! Example 6 of document 01, which no list reaches: a generation that goes round.

use crate::tree::{Document, NodeId};

#[test]
fn generation_4294967294_freed_and_reused_is_0() {
    let mut document = Document::empty();
    let made = document.append_comment(document.root(), "a").expect("accepted");
    document.remove(made).expect("live");
    // One below the generation from which the slot is made again.
    document.generations[made.index()] = u32::MAX - 2;
    let last = document.append_comment(document.root(), "b").expect("accepted");
    assert_eq!(last, NodeId { index: made.index, generation: 4_294_967_294 });
    document.remove(last).expect("live");
    let again = document.append_comment(document.root(), "c").expect("accepted");
    assert_eq!(again, NodeId { index: made.index, generation: 0 });
    assert!(document.kind(last).is_none());
}
