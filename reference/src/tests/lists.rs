//! The committed lists: their answers, what document 01 says of the examples, and that they go through every answer there is.

use crate::{Options, run};
use std::collections::BTreeSet;
use std::path::{Path, PathBuf};

fn folder() -> PathBuf {
    PathBuf::from(env!("CARGO_MANIFEST_DIR")).join("lists")
}

/// The lists that are compared with the Rust.
fn names() -> Vec<String> {
    lists_in(&folder())
}

fn lists_in(folder: &Path) -> Vec<String> {
    let files = std::fs::read_dir(folder).expect("the folder of lists");
    let paths = files.map(|file| file.expect("a file").path());
    let lists = paths.filter(|path| path.extension().is_some_and(|extension| extension == "calls"));
    lists.map(|path| path.file_stem().expect("a name").to_string_lossy().into_owned()).collect()
}

fn read(name: &str, extension: &str) -> String {
    std::fs::read_to_string(folder().join(name).with_extension(extension)).expect("a list and its answers")
}

/// The answers of a list and the labels of its coverage.
fn answer(list: &str) -> (String, Vec<String>) {
    let mut output = Vec::new();
    let report = run(list.as_bytes(), &mut output, Options { check: true, coverage: true });
    let report = report.expect("nothing fails to be read or written");
    assert_eq!(report.fault, None);
    (String::from_utf8(output).expect("answers are text"), report.labels)
}

#[test]
fn the_answers_are_those_beside_the_lists() {
    for name in names() {
        assert!(answer(&read(&name, "calls")).0 == read(&name, "answers"), "{name}");
    }
}

/// "#= .." behind a call is its answer, written by hand: these are calls that the Rust answers otherwise.
#[cfg(feature = "port")]
#[test]
fn the_port_answers_its_own_lists_as_written() {
    for name in lists_in(&folder().join("own")) {
        let list = read(&format!("own/{name}"), "calls");
        let due: String = list.lines().filter_map(|line| Some(line.strip_prefix("#= ")?.to_string() + "\n")).collect();
        let mut output = Vec::new();
        crate::run_port(list.as_bytes(), &mut output).expect("nothing fails to be read or written");
        assert_eq!(String::from_utf8(output).expect("answers are text"), due, "{name}");
    }
}

/// "#= .." behind a call is its answer, or a line of its dump.
#[test]
fn the_examples_are_those_of_document_01() {
    let mut calls = String::new();
    let mut shown = BTreeSet::new();
    let mut example = 0;
    for line in read("examples", "calls").lines() {
        if let Some(due) = line.strip_prefix("#= ") {
            assert!(is_last(&answer(&calls).0, due), "{due} behind\n{calls}");
            shown.insert(example);
        } else {
            example = number_of_example(line).unwrap_or(example);
            calls += line;
            calls += "\n";
        }
    }
    assert_eq!(shown, (1..=12).filter(|number| *number != 6).collect());
}

/// "# 3. .." begins the third example.
fn number_of_example(line: &str) -> Option<u32> {
    line.strip_prefix("# ")?.split_once(". ")?.0.parse().ok()
}

fn is_last(answers: &str, due: &str) -> bool {
    if answers.ends_with("end\n") {
        let dump = answers.rsplit("dump\n").next();
        dump.is_some_and(|dump| dump.lines().any(|line| line == due))
    } else {
        answers.lines().last() == Some(due)
    }
}

/// The list has the two orders one behind the other, each on a document of its own.
#[test]
fn two_moves_answer_alike_in_either_order_but_for_the_ranges() {
    let list = read("either-order", "calls");
    let (one, other) = list.split_once("\nfresh\n").expect("two documents");
    let [one, other] = [one, other].map(|half| answer(half).0);
    let parts = |answers: &str| -> (Vec<String>, Vec<String>) {
        answers.lines().map(ToString::to_string).partition(|line| line.starts_with("r "))
    };
    let ((one_ranges, one_rest), (other_ranges, other_rest)) = (parts(&one), parts(&other));
    assert_eq!(one_rest, other_rest);
    assert!(one_rest.iter().all(|line| line == "! 15" || !line.starts_with('!')), "{one}");
    assert_ne!(one_ranges, other_ranges);
}

/// Each call with every refusal that it can have.
const REFUSALS: [(&str, &[u8]); 14] = [
    ("append_element", &[1, 2, 3, 6, 8, 12]),
    ("append_text", &[1, 3, 6, 8]),
    ("append_comment", &[1, 3, 6, 8]),
    ("append_pi", &[1, 2, 3, 6, 8]),
    ("set_text", &[1, 3, 6, 10]),
    ("set_attribute", &[1, 2, 3, 6, 7]),
    ("remove_attribute", &[1, 6, 7]),
    ("declare_namespace", &[1, 2, 3, 6, 7]),
    ("remove", &[6, 11]),
    ("detach", &[6, 9, 11]),
    ("reparent", &[3, 6, 8, 9, 11, 12, 13]),
    ("insert_at", &[3, 6, 8, 9, 11, 12, 13]),
    ("order_key", &[15]),
    ("limits", &[4]),
];

/// Each call that may be Full with what it may lack.
const LACKS: [(&str, &[&str]); 9] = [
    ("append_element", &["Slot", "Name", "NameBytes", "Entries"]),
    ("append_text", &["Slot", "TextSlot", "TextBytes", "Entries"]),
    ("append_comment", &["Slot", "TextSlot", "TextBytes", "Entries"]),
    ("append_pi", &["Slot", "TextSlot", "TextBytes", "Entries"]),
    ("set_text", &["TextSlot", "TextBytes"]),
    ("set_attribute", &["Slot", "TextSlot", "TextBytes", "Name", "NameBytes", "Entries"]),
    ("declare_namespace", &["Slot", "TextSlot", "TextBytes", "Entries"]),
    ("reparent", &["Entries"]),
    ("insert_at", &["Entries"]),
];

/// Every other answer.
const ACCEPTED: [&str; 42] = [
    "append_element h",
    "append_text h",
    "append_comment h",
    "append_pi h",
    "set_text ok",
    "set_attribute ok",
    "remove_attribute b",
    "declare_namespace h",
    "remove ok",
    "detach ok",
    "reparent ok",
    "insert_at ok",
    "document_order o",
    "compact ok",
    "root h",
    "root_element h",
    "root_element none",
    "nodes l",
    "kind k root",
    "kind k element",
    "kind k attr",
    "kind k text",
    "kind k comment",
    "kind k namespace",
    "kind k pi",
    "kind none",
    "parent h",
    "parent none",
    "children l",
    "is_element b",
    "attribute_nodes l",
    "namespace_nodes l",
    "descendants l",
    "order_key key",
    "order_key none",
    "name n",
    "name none",
    "ranges r",
    "ranges none",
    "dump dump",
    "fresh ok",
    "limits ok",
];

#[test]
fn the_lists_go_through_every_answer_and_no_other() {
    let seen: BTreeSet<String> = names().iter().flat_map(|name| answer(&read(name, "calls")).1).collect();
    let mut due: BTreeSet<String> = ACCEPTED.iter().map(ToString::to_string).collect();
    for (call, numbers) in REFUSALS {
        due.extend(numbers.iter().map(|number| format!("{call} ! {number}")));
    }
    for (call, lacks) in LACKS {
        due.extend(lacks.iter().map(|lack| format!("{call} ! 14 [{lack}]")));
    }
    let missing: Vec<&String> = due.difference(&seen).collect();
    assert!(missing.is_empty(), "no list has {missing:?}");
    // What is beside these is Full for several reasons at once.
    let others: Vec<&String> = seen.difference(&due).filter(|label| !label.contains(", ")).collect();
    assert!(others.is_empty(), "{others:?}");
}
