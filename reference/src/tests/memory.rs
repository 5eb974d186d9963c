//! Memory judged by the rules: that of documents, and that memory with a word changed.

use crate::{Memory, generate};

/// e 1:0 with the element c 2:0, the text 3:0, the attribute 4:0 and the namespace 5:0; slot 6 is free; the text 7:0 is under the Root.
const LIST: &str = "limits 12 16 8 8 8 16 4 8
append_element 0:0 - x65
append_element 1:0 - x63
append_text 1:0 x74
set_attribute 1:0 - x61 x76
declare_namespace 1:0 x70 x75
append_comment 0:0 x6b
append_text 0:0 x20
remove 6:0
";

/// Words that a field of 32 bits, a handle or a count may be mistaken at.
const CHANGES: [u64; 12] = [0, 1, 2, 3, 7, 8, 11, 12, 1 << 32, (1 << 32) + 1, u64::MAX - 1, u64::MAX];

#[track_caller]
fn breaks(rules: &[usize], damage: impl Fn(&mut Memory)) {
    let mut memory = Memory::after(LIST);
    damage(&mut memory);
    assert_eq!(memory.broken_rules().as_deref(), Some(rules));
}

#[test]
fn documents_keep_the_rules() {
    breaks(&[], |_| {});
    for profile in ["mixed", "full", "reuse", "attributes"] {
        let list = generate(3, 400, profile).expect("a profile");
        assert_eq!(Memory::after(&list).broken_rules(), Some(Vec::new()), "{profile}");
    }
}

#[test]
fn test_4_comes_before_the_rules() {
    let mut short = Memory::after(LIST);
    short.words.pop();
    assert_eq!(short.broken_rules(), None);
    let mut without_a_node = Memory::after(LIST);
    without_a_node.limits[0] = 0;
    assert_eq!(without_a_node.broken_rules(), None);
    breaks(&[], |memory| memory.words.push(u64::MAX));
}

#[test]
fn each_rule_is_seen_in_the_words() {
    // Counts, fields, and words that are no node: 24 is the first of the Root's record, 24 + 12 of e's.
    breaks(&[1], |memory| memory.counts[2] = 17);
    breaks(&[1, 8], |memory| memory.counts[7] = 17);
    breaks(&[1], |memory| memory.words[14 * 12] = 1 << 32);
    breaks(&[1, 3, 4], |memory| memory.words[24 + 12] = 7);
    breaks(&[1, 4, 8], |memory| memory.words[24 + 3 * 12 + 1] = 1);
    // The free list.
    breaks(&[2], |memory| memory.words[12] = 5);
    breaks(&[2], |memory| memory.counts[1] = 0);
    // The parent of the attribute: none, then a text.
    breaks(&[3, 4], |memory| memory.words[24 + 4 * 12 + 4] = 0);
    breaks(&[3, 4], |memory| memory.words[24 + 4 * 12 + 4] = 4);
    // The length of the Root's block, past what is listed there; c's empty block.
    breaks(&[4], |memory| memory.words[24 + 7] = 1);
    breaks(&[5], |memory| memory.words[24 + 2 * 12 + 6] = 17);
    // e under c: a cycle.
    breaks(&[4, 6], |memory| memory.words[24 + 12 + 4] = 3);
    // Lengths, and the name of e. 244 is the first of the ends 1, 2, 3, 4, 4, 5: one that falls, one that gives the free slot 4 a byte, and one that gives the
    // byte of slot 1 to slot 0, which no rule minds.
    breaks(&[8], |memory| memory.counts[9] = 4);
    breaks(&[8], |memory| memory.words[244 + 1] = 0);
    breaks(&[8], |memory| memory.words[244 + 4] = 5);
    breaks(&[], |memory| memory.words[244] = 2);
    breaks(&[8], |memory| memory.words[24 + 12 + 1] = 3);
}

#[test]
fn every_word_may_be_anything() {
    let memory = Memory::after(LIST);
    for place in 0..memory.words.len() {
        for change in CHANGES {
            let mut damaged = memory.clone();
            damaged.words[place] = change;
            assert!(damaged.broken_rules().is_some());
        }
    }
    for place in 0..memory.counts.len() {
        for change in CHANGES {
            let mut damaged = memory.clone();
            damaged.counts[place] = change;
            let kept = damaged.broken_rules() == Some(Vec::new());
            // Every count is held by some rule, but for an arena's length, which may be anything that its blocks allow.
            assert_eq!(kept, change == memory.counts[place] || is_another_length(place, change), "{place} {change}");
        }
    }
}

/// An arena of 16 or 8 entries that is longer than it was, or that has no block.
fn is_another_length(count: usize, change: u64) -> bool {
    let least = [0, 0, 16, 4, 4];
    let most = [0, 0, 16, 8, 8];
    (2..5).contains(&count) && (least[count]..=most[count]).contains(&change)
}
