//! Prefixes bound to nothing, which the Rust accepts: no list that it is compared by has one, and the plain tree refuses it.

use crate::calls::{Call, Line, optional_bytes};
use crate::parse::parse;
use crate::{Options, chars, generate, profiles, run};
use std::collections::BTreeSet;

/// The prefixes that a list binds to nothing.
fn bound_to_nothing(list: &str) -> BTreeSet<Vec<u8>> {
    let lines = list.lines().filter_map(|line| parse(line.as_bytes()));
    let calls = lines.filter_map(|line| match line {
        Line::Call(Call::DeclareNamespace { prefix, uri, .. }) if uri.is_empty() => Some(prefix),
        _ => None,
    });
    calls.map(|prefix| optional_bytes(&prefix).to_vec()).collect()
}

#[test]
fn a_generated_list_undoes_the_default_namespace_alone() {
    let lists = (1..=20).flat_map(|seed| profiles().into_iter().filter_map(move |name| generate(seed, 300, name)));
    let bound: BTreeSet<Vec<u8>> = lists.flat_map(|list| bound_to_nothing(&list)).collect();
    assert!(bound.contains(&b""[..]));
    for prefix in bound.iter().filter(|prefix| !prefix.is_empty()) {
        let refused = std::str::from_utf8(prefix).map_or(true, |prefix| !chars::is_prefix(prefix));
        assert!(refused, "{prefix:?}");
    }
}

#[test]
fn the_plain_tree_refuses_what_the_rust_accepts() {
    let list = "append_element 0:0 - x65\ndeclare_namespace 1:0 x70 x\n";
    let mut output = Vec::new();
    let report = run(list.as_bytes(), &mut output, Options { check: true, coverage: false });
    let fault = report.expect("nothing fails to be read or written").fault.expect("a difference");
    assert_eq!(fault, "line 2: declare_namespace 1:0 x70 x: h 2:0: the plain tree says Refused(2)");
}
