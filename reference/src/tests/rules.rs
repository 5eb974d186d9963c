//! Each structure rule, broken on purpose.

use crate::driver::Reference;
use crate::limits::OWN;
use crate::parse::{handle, parse};
use crate::rules::broken;
use crate::state::{Block, Data, Node, State};
use crate::{dump, judge};

/// e 1:0 with the element c 2:0, the text 3:0, the attribute 4:0 and the namespace 5:0; slot 6 is free; the text 7:0 is under the Root.
const LIST: [&str; 8] = [
    "append_element 0:0 - x65",
    "append_element 1:0 - x63",
    "append_text 1:0 x74",
    "set_attribute 1:0 - x61 x76",
    "declare_namespace 1:0 x70 x75",
    "append_comment 0:0 x6b",
    "append_text 0:0 x20",
    "remove 6:0",
];

fn state() -> State {
    let mut reference = Reference::fresh(OWN);
    for line in LIST {
        reference.answer(&parse(line.as_bytes()).expect("a line"));
    }
    State::of(&reference.document)
}

fn node(state: &mut State, slot: usize) -> &mut Node {
    state.slots[slot].node.as_mut().expect("a live node")
}

fn children(state: &mut State, slot: usize) -> &mut Block {
    node(state, slot).blocks[0].as_mut().expect("a block")
}

#[track_caller]
fn breaks(rules: &[usize], damage: impl Fn(&mut State)) {
    let mut state = state();
    damage(&mut state);
    assert_eq!(broken(&state, &OWN), rules);
}

#[test]
fn a_document_keeps_the_rules() {
    breaks(&[], |_| {});
    assert_eq!(judge(&dump::write(&state()), None), ["ok"]);
}

#[test]
fn rule_1() {
    let mut limits = OWN;
    limits.nodes = 7;
    assert_eq!(broken(&state(), &limits), [1]);
    assert_eq!(judge(&dump::write(&state()), Some(limits.numbers())), ["broken 1"]);
    breaks(&[1, 3, 4], |state| state.slots[0].generation = 2);
    breaks(&[1, 4, 6], |state| node(state, 0).parent = handle("1:0"));
    breaks(&[1, 8], |state| node(state, 7).data = Data::Root);
    breaks(&[1], |state| {
        state.arenas[0].records.insert(1, 1 << 32);
    });
    breaks(&[1], |state| children(state, 4).start = 1);
    breaks(&[1], |state| state.order = Some(vec![1 << 32]));
}

#[test]
fn rule_2() {
    breaks(&[2], |state| state.free.clear());
    breaks(&[2], |state| state.free.push(6));
    breaks(&[2], |state| state.free.push(7));
    breaks(&[2], |state| state.free = vec![8]);
}

#[test]
fn rule_3() {
    // An attribute that belongs to nothing, and so stands in no list.
    breaks(&[3], |state| {
        node(state, 4).parent = None;
        let attributes = node(state, 1).blocks[1].as_mut().expect("a block");
        attributes.ids.clear();
        attributes.len = 0;
    });
    // A text in a text.
    breaks(&[3], |state| {
        node(state, 3).parent = handle("7:0");
        children(state, 1).ids.pop();
        children(state, 1).len = 1;
        let start = state.arenas[0].length;
        state.arenas[0].length += 1;
        *children(state, 7) = Block { start, len: 1, ids: vec![handle("3:0").expect("a handle")] };
    });
    breaks(&[3, 4], |state| node(state, 3).parent = handle("6:0"));
}

#[test]
fn rule_4() {
    breaks(&[4], |state| {
        children(state, 1).ids.pop();
        children(state, 1).len = 1;
    });
    breaks(&[4], |state| children(state, 1).ids[1] = handle("2:0").expect("a handle"));
    breaks(&[4], |state| children(state, 1).ids[1] = handle("4:0").expect("a handle"));
    breaks(&[4], |state| children(state, 1).ids[1] = handle("3:2").expect("a handle"));
    breaks(&[4], |state| node(state, 7).parent = None);
}

#[test]
fn rule_5() {
    breaks(&[5], |state| children(state, 1).start = 99);
    breaks(&[5], |state| children(state, 2).start = 99);
    breaks(&[5], |state| children(state, 1).start = state_start(0));
    breaks(&[5], |state| {
        let start = children(state, 0).start;
        state.arenas[0].records.insert(start, 99);
    });
}

/// Where a node's child block starts.
fn state_start(slot: usize) -> u64 {
    children(&mut state(), slot).start
}

#[test]
fn rule_6() {
    // c is its own parent and its own child.
    breaks(&[6], |state| {
        let itself = handle("2:0").expect("a handle");
        children(state, 1).ids.remove(0);
        children(state, 1).len = 1;
        node(state, 2).parent = Some(itself);
        let start = state.arenas[0].length;
        state.arenas[0].length += 1;
        *children(state, 2) = Block { start, len: 1, ids: vec![itself] };
    });
}

#[test]
fn rule_7() {
    breaks(&[7], |state| {
        let moved = children(state, 1).ids.remove(0);
        children(state, 1).len = 1;
        node(state, 2).parent = handle("0:0");
        children(state, 0).ids.push(moved);
        children(state, 0).len += 1;
    });
}

#[test]
fn rule_8() {
    breaks(&[8], |state| node(state, 1).data = Data::Element { name: 3 });
    breaks(&[8], |state| state.name_bytes += 1);
    breaks(&[8], |state| state.text_bytes -= 1);
    breaks(&[8], |state| state.free_texts.clear());
    breaks(&[8], |state| state.free_texts.push(0));
    breaks(&[8], |state| state.free_texts.push(9));
    breaks(&[8], |state| {
        state.texts[3] = b"k".to_vec();
        state.text_bytes += 1;
    });
}
