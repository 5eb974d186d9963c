//! A register of water zones: districts of fifty zones, each zone with two attributes, a blend and its text.

use crate::calls::Call;
use crate::driver::apply;
use crate::limits::Limits;
use crate::memory::Memory;
use crate::port::Port;
use crate::tree::{Document, NodeId};
use oxml_lent::Record;

/// Zones of a district, and nodes of a zone: element, two attributes, blend, text.
pub(super) const ZONES: usize = 50;
pub(super) const ZONE_NODES: usize = 5;

/// The same register on both sides.
pub(super) struct Register {
    pub(super) document: Document,
    pub(super) port: Port,
    pub(super) districts: Vec<NodeId>,
    pub(super) zones: Vec<NodeId>,
    pub(super) texts: Vec<NodeId>,
}

pub(super) fn bytes(text: &str) -> Vec<u8> {
    text.as_bytes().to_vec()
}

pub(super) fn element(parent: NodeId, local: &str) -> Call {
    Call::AppendElement { parent, namespace: None, local: bytes(local) }
}

/// Applies the calls that build a register of at least so many nodes, in turn; a call's answer is the node it made.
pub(super) fn build(nodes: usize, mut made: impl FnMut(Call) -> NodeId) -> (Vec<NodeId>, Vec<NodeId>, Vec<NodeId>) {
    let (mut districts, mut zones, mut texts) = (Vec::new(), Vec::new(), Vec::new());
    let root = NodeId { index: 0, generation: 0 };
    let register = made(element(root, "register"));
    let mut count = 2;
    while count < nodes {
        if zones.len() == districts.len() * ZONES {
            districts.push(made(element(register, "district")));
            count += 1;
        }
        let district = districts[districts.len() - 1];
        let zone = made(element(district, "zone"));
        for (local, value) in [("id", format!("z{}", zones.len())), ("hardness", format!("{}", zones.len() % 30))] {
            made(Call::SetAttribute { element: zone, namespace: None, local: bytes(local), value: bytes(&value) });
        }
        let blend = made(element(zone, "blend"));
        texts.push(made(Call::AppendText { parent: blend, text: bytes("blend 7, river and well") }));
        zones.push(zone);
        count += ZONE_NODES;
    }
    (districts, zones, texts)
}

/// What the call made; itself for one that answers no handle.
pub(super) fn made_by(answer: &crate::answers::Answer, call: &Call) -> NodeId {
    match (answer, call) {
        (crate::answers::Answer::Handle(id), _) => *id,
        (_, Call::SetAttribute { element, .. }) => *element,
        _ => panic!("{call} is answered {answer}"),
    }
}

/// Room for a twentieth more than the register holds, and for a few calls at least.
pub(super) fn limits(document: &Document) -> Limits {
    let mut numbers = Limits::held(document).numbers();
    for number in &mut numbers {
        *number += *number / 20 + 400;
    }
    let greatest = crate::limits::GREATEST.numbers();
    for (number, greatest) in numbers.iter_mut().zip(greatest) {
        *number = greatest.min(*number);
    }
    Limits::from_numbers(&numbers).expect("eight numbers")
}

impl Register {
    /// Built by the Rust; the port's memory is laid out from it, as its own calls would leave it.
    pub(super) fn of(nodes: usize) -> Register {
        let mut document = Document::empty();
        let (districts, zones, texts) = build(nodes, |call| {
            let answer = apply(&mut document, &call);
            made_by(&answer, &call)
        });
        let port = port_of(&document, &limits(&document));
        Register { document, port, districts, zones, texts }
    }
}

/// The port with the same document.
pub(super) fn port_of(document: &Document, limits: &Limits) -> Port {
    let Memory { limits: numbers, counts, current, words } = Memory::of(document, limits);
    let mut record = [0; 19];
    record[..8].copy_from_slice(&numbers);
    record[8..18].copy_from_slice(&counts);
    record[18] = u64::from(current);
    let scratch = vec![0; crate::port::lent_limits(limits).scratch_words()];
    Port { record: Record(record), memory: words, scratch }
}
