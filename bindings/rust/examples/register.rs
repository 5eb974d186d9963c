//! A small register of water zones, edited through the static library: `cargo run --example register`.

use oxml_lent::{Document, Limits, NodeId, NodeKind, Refusal};

const LIMITS: Limits = Limits {
    nodes: 64,
    children: 256,
    attributes: 128,
    namespaces: 64,
    texts: 64,
    text_bytes: 1024,
    names: 16,
    name_bytes: 256,
};

/// A zone with the hardness of its water and the blend that it gets.
fn add_zone(document: &mut Document, register: NodeId, hardness: &str, blend: &str) -> Result<NodeId, Refusal> {
    let zone = document.append_element(register, None::<&str>, "zone")?;
    document.set_attribute(zone, None::<&str>, "hardness", hardness)?;
    document.append_text(zone, blend)?;
    Ok(zone)
}

fn show(document: &Document, register: NodeId) -> Result<(), Refusal> {
    for zone in document.children(register)? {
        let place = document.order_key(zone)?;
        for child in document.children(zone)? {
            if let Some(NodeKind::Text(blend)) = document.kind(child)? {
                println!("zone {zone:?} at {place:?}: {}", String::from_utf8_lossy(&blend));
            }
        }
    }
    Ok(())
}

fn main() -> Result<(), Refusal> {
    let mut memory = vec![0; LIMITS.document_words()];
    let mut scratch = vec![0; LIMITS.scratch_words()];
    let mut document = Document::empty(&LIMITS, &mut memory, &mut scratch)?;
    let root = document.root()?;
    let register = document.append_element(root, None::<&str>, "register")?;
    let upper = add_zone(&mut document, register, "14", "blend 7")?;
    add_zone(&mut document, register, "9", "blend 2")?;
    document.document_order()?;
    show(&document, register)?;

    println!("the upper zone is removed, and another takes its slot");
    document.remove(upper)?;
    let east = add_zone(&mut document, register, "11", "blend 4")?;
    println!("its order key: {}", document.order_key(east).expect_err("the order is stale"));
    document.document_order()?;
    show(&document, register)
}
