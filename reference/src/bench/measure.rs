//! Times of editing calls, and their floor.

use super::register::{Register, ZONE_NODES, build, bytes, element, limits, made_by, port_of};
use crate::answers::Answer;
use crate::calls::Call;
use crate::driver::apply;
use crate::port::Port;
use crate::tree::{Document, NodeId};
use std::hint::black_box;
use std::time::Instant;

/// One kind of call: nanoseconds a call on each side.
pub(super) struct Row {
    pub(super) name: &'static str,
    pub(super) rust: f64,
    pub(super) port: f64,
}

/// Up to here a register is built by the port call by call; above, appends are sampled at ten sizes.
const BUILT: usize = 8_000;

/// Nanoseconds a round, the least of several.
pub(super) fn least(rounds: usize, mut round: impl FnMut() -> f64) -> f64 {
    (0..rounds).map(|_| round()).fold(f64::INFINITY, f64::min)
}

/// Nanoseconds from the start to now.
pub(super) fn since(start: Instant) -> f64 {
    start.elapsed().as_secs_f64() * 1e9
}

/// Clearing the scratch, and reading the words in use once.
pub(super) fn floor(register: &Register) -> f64 {
    let mut scratch = register.port.scratch.clone();
    let parts = register.port.laid_out().parts_in_use();
    let words = &register.port.memory;
    least(20, || {
        let start = Instant::now();
        black_box(&mut scratch).fill(0);
        let mut sum = 0_u64;
        for (first, len) in &parts {
            sum = black_box(&words[*first..first + len]).iter().fold(sum, |sum, word| sum.wrapping_add(*word));
        }
        black_box(sum);
        since(start)
    })
}

/// Building a register from a fresh document.
pub(super) fn building(nodes: usize) -> Result<Row, String> {
    let mut calls = 0;
    let rust = least(3, || {
        let mut document = Document::empty();
        calls = 0;
        let start = Instant::now();
        build(nodes, |call| {
            calls += 1;
            made_by(&apply(&mut document, &call), &call)
        });
        since(start)
    });
    let port = if nodes <= BUILT { built(nodes)? / f64::from(calls) } else { sampled(nodes)? };
    Ok(Row { name: "building", rust: rust / f64::from(calls), port })
}

/// The whole of building by the port.
fn built(nodes: usize) -> Result<f64, String> {
    let whole = Register::of(nodes);
    let mut port = Port::fresh(&limits(&whole.document)).map_err(|why| why.to_string())?;
    let start = Instant::now();
    build(nodes, |call| made_by(&port.call(&call), &call));
    Ok(since(start))
}

/// The mean of appends to registers of a tenth of the size, of two tenths, and so on, each with the limits of the whole.
fn sampled(nodes: usize) -> Result<f64, String> {
    let room = limits(&Register::of(nodes).document);
    let mut sum = 0.0;
    for tenth in 1..=10 {
        let part = Register::of(nodes * tenth / 10 - ZONE_NODES);
        let mut port = port_of(&part.document, &room);
        let calls: Vec<Call> = spread(&part.zones, 10).map(|zone| element(zone, "blend")).collect();
        sum += each(&mut port, &calls)?;
    }
    Ok(sum / 10.0)
}

/// So many of the nodes, spread over all.
fn spread(nodes: &[NodeId], count: usize) -> impl Iterator<Item = NodeId> {
    let step = (nodes.len() / count).max(1);
    nodes.iter().step_by(step).take(count).copied()
}

/// Nanoseconds a call of the port, all of which are accepted.
fn each(port: &mut Port, calls: &[Call]) -> Result<f64, String> {
    let start = Instant::now();
    for call in calls {
        let answer = port.call(call);
        if let Answer::Refused(_) = answer {
            return Err(format!("{call} is answered {answer}"));
        }
    }
    Ok(since(start) / calls.len() as f64)
}

/// One kind of call: what comes before, and the calls that are timed.
struct Kind {
    name: &'static str,
    before: Vec<Call>,
    calls: Vec<Call>,
}

/// Edits spread over a register, each kind on the register as it was built.
pub(super) fn edits(register: &Register) -> Result<Vec<Row>, String> {
    kinds(register).into_iter().map(|kind| row(register, &kind)).collect()
}

fn row(register: &Register, kind: &Kind) -> Result<Row, String> {
    let rust = least(9, || {
        let mut document = register.document.clone();
        for call in &kind.before {
            apply(&mut document, call);
        }
        let start = Instant::now();
        for call in &kind.calls {
            black_box(apply(&mut document, call));
        }
        since(start) / kind.calls.len() as f64
    });
    let mut times = Vec::new();
    for _ in 0..3 {
        let mut port = register.port.clone();
        each(&mut port, &kind.before)?;
        times.push(each(&mut port, &kind.calls)?);
    }
    Ok(Row { name: kind.name, rust, port: times.into_iter().fold(f64::INFINITY, f64::min) })
}

fn kinds(register: &Register) -> Vec<Kind> {
    let Register { districts, zones, texts, .. } = register;
    let count = 40;
    let zone = || spread(zones, count);
    let district = |k: usize| districts[k % districts.len()];
    let attribute = |element, local: &str, value: &str| Call::SetAttribute {
        element,
        namespace: None,
        local: bytes(local),
        value: bytes(value),
    };
    let plain: Vec<(&'static str, Vec<Call>)> = vec![
        ("append_element", zone().map(|zone| element(zone, "note")).collect()),
        ("append_text", zone().map(|parent| Call::AppendText { parent, text: bytes("as of May") }).collect()),
        ("set_text", spread(texts, count).map(|node| Call::SetText { node, text: bytes("blend 4, well") }).collect()),
        ("set_attribute, replaced", zone().map(|zone| attribute(zone, "hardness", "17")).collect()),
        ("set_attribute, new", zone().map(|zone| attribute(zone, "source", "well")).collect()),
        (
            "remove_attribute",
            zone()
                .map(|element| Call::RemoveAttribute { element, namespace: None, local: bytes("hardness") })
                .collect(),
        ),
        (
            "declare_namespace",
            zone()
                .map(|element| Call::DeclareNamespace { element, prefix: Some(bytes("w")), uri: bytes("urn:w") })
                .collect(),
        ),
        ("detach", zone().map(Call::Detach).collect()),
        (
            "reparent",
            zone().enumerate().map(|(k, node)| Call::Reparent { node, parent: district(7 * k + 3) }).collect(),
        ),
        (
            "insert_at",
            zone()
                .enumerate()
                .map(|(k, child)| Call::InsertAt { parent: district(5 * k + 1), index: 2, child })
                .collect(),
        ),
        ("remove, a zone", zone().map(Call::Remove).collect()),
        ("remove, a district", spread(districts, 3).map(Call::Remove).collect()),
        ("compact", vec![Call::Compact; 5]),
    ];
    let mut kinds: Vec<Kind> =
        plain.into_iter().map(|(name, calls)| Kind { name, before: Vec::new(), calls }).collect();
    // Only an order that is not current is renewed.
    kinds.push(Kind { name: "document_order", before: vec![Call::Detach(zones[0])], calls: vec![Call::DocumentOrder] });
    kinds
}
