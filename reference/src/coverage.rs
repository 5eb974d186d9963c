//! How often each call got each answer, to see how deep a list goes.

use crate::answers::Answer;
use crate::calls::Line;
use crate::driver::{FULL, Reference};
use crate::limits;
use std::collections::BTreeMap;

#[derive(Default)]
pub(crate) struct Coverage(BTreeMap<String, u64>);

impl Coverage {
    pub(crate) fn count(&mut self, line: &Line, answer: &Answer, before: &Reference) {
        *self.0.entry(label(line, answer, before)).or_default() += 1;
    }

    pub(crate) fn labels(&self) -> impl Iterator<Item = &String> {
        self.0.keys()
    }

    pub(crate) fn table(&self) -> String {
        self.0.iter().map(|(label, count)| format!("{count:>9}  {label}\n")).collect()
    }
}

/// The call, then its refusal or the sort of its answer; behind 14 what was lacking.
fn label(line: &Line, answer: &Answer, before: &Reference) -> String {
    let name = match line {
        Line::Call(call) => call.name(),
        Line::Fresh => "fresh",
        Line::Limits(_) => "limits",
        Line::Ranges(_) => "ranges",
        Line::Dump => "dump",
    };
    match (line, answer) {
        (Line::Call(call), Answer::Refused(FULL)) => {
            let lacks = limits::lacks(&before.document, &before.limits, call);
            format!("{name} ! 14 {lacks:?}")
        }
        (_, Answer::Refused(number)) => format!("{name} ! {number}"),
        (_, Answer::Kind(kind)) => {
            let shown = kind.to_string();
            format!("{name} k {}", shown.split(' ').next().unwrap_or_default())
        }
        _ => {
            let shown = answer.to_string();
            let sort: String = shown.chars().take_while(|c| c.is_ascii_alphabetic()).collect();
            format!("{name} {sort}")
        }
    }
}
