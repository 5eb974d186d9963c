//! The figures as tables.

use super::Figures;
use super::measure::Row;
use super::walking::{Listing, Walk, Walks};
use std::fmt::Write;

pub(super) fn tables(all: &[Figures]) -> String {
    let mut out = String::from("Microseconds an editing call; in brackets the multiple of the floor.\n\n");
    heading(&mut out, all, &["Rust", "port"]);
    row(&mut out, "floor", all, |figures| vec!["-".to_string(), micro(figures.floor)]);
    for k in 0..all[0].edits.len() {
        row(&mut out, all[0].edits[k].name, all, |figures| {
            let Row { rust, port, .. } = &figures.edits[k];
            vec![micro(*rust), format!("{} ({:.1})", micro(*port), port / figures.floor)]
        });
    }
    out.push_str("\nNanoseconds a reading call; in brackets the multiple of the Rust's.\n\n");
    heading(&mut out, all, &["Rust", "port"]);
    for k in 0..all[0].reads.len() {
        row(&mut out, all[0].reads[k].name, all, |figures| {
            let Row { rust, port, .. } = &figures.reads[k];
            vec![format!("{rust:.1}"), format!("{port:.1} ({:.1})", port / rust)]
        });
    }
    out
}

pub(super) fn walks(all: &Walks) -> String {
    let mut out = String::from(
        "\nFor each node that a walk lists: entries of lists read, and nanoseconds; in brackets the multiple of the Rust's.\n\n",
    );
    out.push_str("| | entries read | Rust | port, step by step | port, all at once |\n|---|---:|---:|---:|---:|\n");
    for Walk { name, entries, rust, steps, list } in &all.sound {
        let cell = |time: f64| format!("{time:.1} ({:.1})", time / rust);
        writeln!(out, "| {name} | {entries:.1} | {rust:.1} | {} | {} |", cell(*steps), cell(*list))
            .expect("a String takes everything");
    }
    out.push_str("\nWalks in damaged memory, beside the two in sound memory.\n\n");
    out.push_str("| | nodes listed | microseconds |\n|---|---:|---:|\n");
    for Listing { name, nodes, time } in &all.damaged {
        writeln!(out, "| {name} | {nodes} | {} |", micro(*time)).expect("a String takes everything");
    }
    out
}

fn micro(nanoseconds: f64) -> String {
    format!("{:.2}", nanoseconds / 1e3)
}

fn heading(out: &mut String, all: &[Figures], sides: &[&str]) {
    out.push('|');
    for figures in all {
        for side in sides {
            write!(out, " | {side}, {} nodes", figures.nodes).expect("a String takes everything");
        }
    }
    out.push_str(" |\n|---");
    out.push_str(&"|---:".repeat(all.len() * sides.len()));
    out.push_str("|\n");
}

fn row(out: &mut String, name: &str, all: &[Figures], cells: impl Fn(&Figures) -> Vec<String>) {
    let cells: Vec<String> = all.iter().flat_map(cells).collect();
    writeln!(out, "| {name} | {} |", cells.join(" | ")).expect("a String takes everything");
}
