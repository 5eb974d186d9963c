//! Every call through the static library, each with an answer that document 01 or the source gives.

use oxml_lent::{Arena, Document, Limits, NodeData, NodeId, NodeKind, Position, Range, Refusal};

const NONE: Option<&str> = None;

const LIMITS: Limits = Limits {
    nodes: 32,
    children: 128,
    attributes: 64,
    namespaces: 64,
    texts: 32,
    text_bytes: 512,
    names: 16,
    name_bytes: 256,
};

/// The words that the limits need.
fn lent() -> (Vec<u64>, Vec<u64>) {
    (vec![0; LIMITS.document_words()], vec![0; LIMITS.scratch_words()])
}

/// Runs a test on a fresh document.
fn with_document(test: impl FnOnce(Document<'_>)) {
    let (mut memory, mut scratch) = lent();
    test(Document::empty(&LIMITS, &mut memory, &mut scratch).expect("the buffers fit"));
}

fn handle(index: u32, generation: u32) -> NodeId {
    NodeId { index, generation }
}

#[test]
fn a_fresh_document_holds_the_root_alone() {
    with_document(|document| {
        assert_eq!(document.root(), Ok(handle(0, 0)));
        assert_eq!(document.kind(handle(0, 0)), Ok(Some(NodeKind::Root)));
        assert_eq!(document.nodes(), Ok(vec![handle(0, 0)]));
        assert_eq!(document.root_element(), Ok(None));
        assert_eq!(document.order_key(handle(0, 0)), Ok(Some(0)));
    });
}

#[test]
fn start_refuses_short_memory_and_a_limit_of_no_nodes() {
    let (mut memory, mut scratch) = lent();
    memory.pop();
    let short = Document::empty(&LIMITS, &mut memory, &mut scratch).map(|_| ());
    assert_eq!(short, Err(Refusal::BadBuffers));
    let none = Document::empty(&Limits { nodes: 0, ..LIMITS }, &mut memory, &mut scratch).map(|_| ());
    assert_eq!(none, Err(Refusal::BadBuffers));
}

#[test]
fn nodes_are_appended_and_shown() {
    with_document(|mut document| {
        let root = document.root().unwrap();
        let zone = document.append_element(root, Some("urn:water"), "zone").unwrap();
        let text = document.append_text(zone, "blend 7").unwrap();
        let comment = document.append_comment(zone, "checked").unwrap();
        let pi = document.append_pi(zone, "print", "a4").unwrap();
        assert_eq!(document.children(zone), Ok(vec![text, comment, pi]));
        assert_eq!(document.range(Arena::Children, zone), Ok(Range { start: 4, len: 3 }));
        assert_eq!(document.kind(text), Ok(Some(NodeKind::Text(b"blend 7".to_vec()))));
        assert_eq!(document.kind(comment), Ok(Some(NodeKind::Comment(b"checked".to_vec()))));
        let shown = NodeKind::ProcessingInstruction { target: b"print".to_vec(), data: b"a4".to_vec() };
        assert_eq!(document.kind(pi), Ok(Some(shown)));
        assert_eq!(document.parent(pi), Ok(Some(zone)));
        assert_eq!(document.root_element(), Ok(Some(zone)));
        assert_eq!((document.is_element(zone), document.is_element(pi)), (Ok(true), Ok(false)));
        let Ok(Some(NodeData::Element { name, .. })) = document.data(zone) else {
            panic!("zone is an element");
        };
        assert_eq!(document.name(name), Ok(Some((b"urn:water".to_vec(), b"zone".to_vec()))));
        assert_eq!(document.name(name + 1), Ok(None));
    });
}

#[test]
fn attributes_and_namespaces_are_replaced_in_place() {
    with_document(|mut document| {
        let root = document.root().unwrap();
        let zone = document.append_element(root, NONE, "zone").unwrap();
        document.set_attribute(zone, NONE, "hardness", "12").unwrap();
        let [hardness] = document.attribute_nodes(zone).unwrap()[..] else { panic!("one attribute") };
        document.set_attribute(zone, NONE, "hardness", "14").unwrap();
        assert_eq!(document.attribute_nodes(zone), Ok(vec![hardness]));
        let shown = document.kind(hardness).unwrap();
        assert!(matches!(shown, Some(NodeKind::Attr { value, .. }) if value == b"14"));
        let declared = document.declare_namespace(zone, Some("w"), "urn:water").unwrap();
        assert_eq!(document.declare_namespace(zone, Some("w"), "urn:other"), Ok(declared));
        assert_eq!(document.namespace_nodes(zone), Ok(vec![declared]));
        assert_eq!(document.remove_attribute(zone, NONE, "hardness"), Ok(true));
        assert_eq!(document.remove_attribute(zone, NONE, "hardness"), Ok(false));
    });
}

#[test]
fn only_the_default_namespace_may_be_undone() {
    with_document(|mut document| {
        let root = document.root().unwrap();
        let zone = document.append_element(root, NONE, "zone").unwrap();
        assert_eq!(document.declare_namespace(zone, Some("w"), ""), Err(Refusal::InvalidName));
        let declared = document.declare_namespace(zone, Some("w"), "urn:water").unwrap();
        assert_eq!(document.declare_namespace(zone, Some("w"), ""), Err(Refusal::InvalidName));
        let shown = document.kind(declared).unwrap();
        assert!(matches!(shown, Some(NodeKind::Namespace { uri, .. }) if uri == b"urn:water"));
        let default = document.declare_namespace(zone, NONE, "urn:water").unwrap();
        assert_eq!(document.declare_namespace(zone, NONE, ""), Ok(default));
        assert_eq!(document.namespace_nodes(zone), Ok(vec![declared, default]));
    });
}

#[test]
fn a_reused_slot_has_no_place_of_the_node_before() {
    with_document(|mut document| {
        let root = document.root().unwrap();
        let register = document.append_element(root, NONE, "register").unwrap();
        let old = document.append_element(register, NONE, "zone").unwrap();
        document.document_order().unwrap();
        assert_eq!(document.order_key(old), Ok(Some(2)));
        document.remove(old).unwrap();
        let new = document.append_element(register, NONE, "zone").unwrap();
        assert_eq!((new.index, new.generation), (old.index, old.generation + 2));
        assert_eq!(document.order_key(new), Err(Refusal::OrderStale));
        document.document_order().unwrap();
        assert_eq!(document.order_key(new), Ok(Some(2)));
        assert_eq!(document.order_words(), vec![0, 1, 2]);
        assert_eq!(document.set_text(old, "gone"), Err(Refusal::Stale));
    });
}

#[test]
fn nodes_move_and_compact_keeps_what_is_shown() {
    with_document(|mut document| {
        let root = document.root().unwrap();
        let register = document.append_element(root, NONE, "register").unwrap();
        let zones: Vec<NodeId> = (0..5).map(|_| document.append_element(register, NONE, "zone").unwrap()).collect();
        document.insert_at(register, 0, zones[4]).unwrap();
        document.reparent(zones[1], zones[0]).unwrap();
        assert_eq!(document.reparent(zones[0], zones[1]), Err(Refusal::WouldCycle));
        document.detach(zones[2]).unwrap();
        assert_eq!(document.parent(zones[2]), Ok(None));
        let listed = vec![zones[4], zones[0], zones[3]];
        assert_eq!(document.children(register), Ok(listed.clone()));
        document.compact().unwrap();
        assert_eq!(document.children(register), Ok(listed));
        assert_eq!(document.children(zones[0]), Ok(vec![zones[1]]));
    });
}

/// A register of two zones, each with a blend and its text; the first zone has an attribute and a namespace. All nodes below the Root, in document order.
fn two_zones(document: &mut Document) -> [NodeId; 7] {
    let root = document.root().unwrap();
    let register = document.append_element(root, NONE, "register").unwrap();
    // The second is made first, so that document order is not slot order.
    let [second, first] = [(); 2].map(|()| document.append_element(register, NONE, "zone").unwrap());
    document.insert_at(register, 0, first).unwrap();
    document.set_attribute(first, NONE, "hardness", "12").unwrap();
    document.declare_namespace(first, Some("w"), "urn:water").unwrap();
    let [[a, b], [c, d]] = [first, second].map(|zone| {
        let blend = document.append_element(zone, NONE, "blend").unwrap();
        [blend, document.append_text(blend, "well").unwrap()]
    });
    [register, first, a, b, second, c, d]
}

/// What a walk lists, by both its forms.
fn below(document: &Document, id: NodeId) -> Vec<NodeId> {
    let listed = document.list_below(id).unwrap();
    assert_eq!(document.descendants_of(id).unwrap().collect::<Vec<_>>(), listed);
    listed
}

#[test]
fn a_walk_lists_what_is_below_a_node_in_document_order() {
    with_document(|mut document| {
        let all = two_zones(&mut document);
        let [register, first, blend, text, second, ..] = all;
        assert_eq!(below(&document, document.root().unwrap()), all);
        assert_eq!(below(&document, register), all[1..]);
        assert_eq!(below(&document, first), [blend, text]);
        let [hardness] = document.attribute_nodes(first).unwrap()[..] else { panic!("one attribute") };
        let [water] = document.namespace_nodes(first).unwrap()[..] else { panic!("one namespace") };
        for childless in [text, hardness, water] {
            assert_eq!(below(&document, childless), []);
        }
        document.detach(second).unwrap();
        assert_eq!(below(&document, second), all[5..]);
        assert_eq!(below(&document, register), [first, blend, text]);
        document.remove(first).unwrap();
        for stale in [first, blend, handle(31, 0), handle(u32::MAX, u32::MAX)] {
            assert_eq!(below(&document, stale), []);
        }
    });
}

#[test]
fn a_walk_goes_on_after_an_edit() {
    with_document(|mut document| {
        let [register, first, blend, text, second, ..] = two_zones(&mut document);
        let mut walk = document.descendants_of(register).unwrap();
        assert_eq!(walk.next(), Some(first));
        let at = walk.position();
        let note = document.append_comment(first, "checked").unwrap();
        document.insert_at(first, 0, note).unwrap();
        let (listed, at) = document.walk_next(at).unwrap().unwrap();
        assert_eq!(listed, note);
        document.detach(blend).unwrap();
        let (listed, at) = document.walk_next(at).unwrap().unwrap();
        assert_eq!(listed, second);
        assert_eq!(below(&document, blend), [text]);
        document.remove(second).unwrap();
        assert_eq!(document.walk_next(at), Ok(None));
    });
}

#[test]
fn any_seven_words_are_a_position() {
    with_document(|mut document| {
        let all = two_zones(&mut document);
        let [register, _, _, text, second, ..] = all.map(|id| u64::from(id.index));
        // A node that is not below the zone, hints that are wrong, and more left than there are nodes: the walk meets the zone, and ends behind it.
        let made_up = Position([second, text, 7, u64::MAX, 1 << 40, 3, u64::MAX]);
        let steps = std::iter::successors(Some((all[3], made_up)), |(_, at)| document.walk_next(*at).unwrap());
        assert_eq!(steps.map(|(id, _)| id).collect::<Vec<_>>(), all[3..]);
        for ended in [[register, register, 0, 0, 0, 0, 0], [0, 31, 0, 0, 0, 0, 9], [u64::MAX; 7]] {
            assert_eq!(document.walk_next(Position(ended)), Ok(None));
        }
    });
}

#[test]
fn a_walk_refuses_short_memory() {
    let (mut memory, mut scratch) = lent();
    let mut document = Document::empty(&LIMITS, &mut memory, &mut scratch).unwrap();
    let [register, ..] = two_zones(&mut document);
    let (record, at) = (document.record(), document.walk_from(register).unwrap());
    memory.pop();
    let document = Document::resume(record, &mut memory, &mut scratch);
    assert_eq!(document.descendants_of(register).map(|_| ()), Err(Refusal::BadBuffers));
    assert_eq!(document.list_below(register), Err(Refusal::BadBuffers));
    assert_eq!(document.walk_next(at), Err(Refusal::BadBuffers));
}

#[test]
fn refusals_change_nothing() {
    with_document(|mut document| {
        let root = document.root().unwrap();
        let zone = document.append_element(root, NONE, "zone").unwrap();
        let (record, memory) = (document.record(), document.memory().to_vec());
        assert_eq!(document.append_element(root, NONE, "zone"), Err(Refusal::RootElementExists));
        assert_eq!(document.append_element(zone, NONE, "1"), Err(Refusal::InvalidName));
        assert_eq!(document.append_text(zone, "\0"), Err(Refusal::InvalidText));
        assert_eq!(document.append_text(zone, [0xff]), Err(Refusal::NotUtf8));
        assert_eq!(document.append_text(zone, "x".repeat(513)), Err(Refusal::Full));
        assert_eq!(document.set_text(zone, "x"), Err(Refusal::NotText));
        assert_eq!(document.set_attribute(root, NONE, "a", "b"), Err(Refusal::NotAnElement));
        assert_eq!(document.remove(root), Err(Refusal::NotRemovable));
        assert_eq!((document.record(), document.memory()), (record, &memory[..]));
        assert!(document.scratch().iter().all(|word| *word == 0));
    });
}

#[test]
fn damaged_memory_is_refused_and_can_still_be_read() {
    let (mut memory, mut scratch) = lent();
    let mut document = Document::empty(&LIMITS, &mut memory, &mut scratch).unwrap();
    let root = document.root().unwrap();
    let zone = document.append_element(root, NONE, "zone").unwrap();
    let record = document.record();
    // The zone's parent word: a slot that was not made.
    let nodes = usize::try_from(LIMITS.nodes).unwrap();
    memory[2 * nodes + 12 + 4] = 9;
    let mut document = Document::resume(record, &mut memory, &mut scratch);
    assert_eq!(document.remove(zone), Err(Refusal::Damaged));
    assert_eq!(document.compact(), Err(Refusal::Damaged));
    assert_eq!(document.parent(zone), Ok(Some(handle(8, 0))));
    assert_eq!(document.children(root), Ok(vec![zone]));
}

#[test]
fn a_document_is_resumed_from_its_record_and_memory() {
    let (mut memory, mut scratch) = lent();
    let mut document = Document::empty(&LIMITS, &mut memory, &mut scratch).unwrap();
    let root = document.root().unwrap();
    let zone = document.append_element(root, NONE, "zone").unwrap();
    let record = document.record();
    assert_eq!(record.counts(), [2, 0, 4, 0, 0, 0, 0, 0, 1, 4]);
    let mut moved = memory.clone();
    let mut resumed = Document::resume(record, &mut moved, &mut scratch);
    let text = resumed.append_text(zone, "blend 7").unwrap();
    assert_eq!(resumed.children(zone), Ok(vec![text]));
}
