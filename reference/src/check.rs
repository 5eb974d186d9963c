//! Everything that can be tested of the driver and the originals after each call.

use crate::answers::Answer;
use crate::calls::{Call, Line};
use crate::driver::{FULL, Reference, apply};
use crate::dump;
use crate::limits::Limits;
use crate::parse::parse;
use crate::plain::Plain;
use crate::rules;
use crate::state::State;

/// The plain tree beside a list.
pub(crate) struct Check {
    plain: Plain,
}

impl Check {
    pub(crate) fn fresh(reference: &Reference) -> Self {
        Check { plain: Plain::fresh(reference.document.root()) }
    }

    /// A line with the document before and after it; what is wrong, if anything is.
    pub(crate) fn line(
        &mut self,
        line: &Line,
        answer: &Answer,
        before: &Reference,
        after: &Reference,
    ) -> Result<(), String> {
        same_line(line)?;
        match line {
            Line::Call(call) => self.call(call, answer, before, after)?,
            Line::Fresh => *self = Check::fresh(after),
            Line::Limits(_) if *answer == Answer::Done => *self = Check::fresh(after),
            Line::Limits(_) | Line::Ranges(_) | Line::Dump => {}
        }
        self.plain.compare_all(&after.document)?;
        let state = State::of(&after.document);
        keeps_the_rules(&state, &after.limits)?;
        if let Answer::Dump(dump) = answer {
            same_state(dump, &state)?;
        }
        if !changes(line, answer) && state != State::of(&before.document) {
            return Err("the document has changed".to_string());
        }
        Ok(())
    }

    fn call(&mut self, call: &Call, answer: &Answer, before: &Reference, after: &Reference) -> Result<(), String> {
        if *answer == Answer::Refused(FULL) {
            needs_more_than_the_limits(call, before)?;
        }
        match call {
            Call::Name(_) => Ok(()),
            _ => self.plain.step(call, answer, &after.document),
        }
    }
}

/// The line is written as it is read.
fn same_line(line: &Line) -> Result<(), String> {
    let written = line.to_string();
    if parse(written.as_bytes()).as_ref() == Some(line) {
        Ok(())
    } else {
        Err(format!("{written} is read as another line"))
    }
}

/// Whether a document may be another after the line: a refusal, a reading call and a question about the state leave it.
fn changes(line: &Line, answer: &Answer) -> bool {
    let edits = match line {
        Line::Call(call) => call.is_edit(),
        Line::Fresh | Line::Limits(_) => true,
        Line::Ranges(_) | Line::Dump => false,
    };
    edits && !matches!(answer, Answer::Refused(_))
}

fn keeps_the_rules(state: &State, limits: &Limits) -> Result<(), String> {
    let broken = rules::broken(state, limits);
    if !broken.is_empty() {
        return Err(format!("broken rules: {broken:?}"));
    }
    Ok(())
}

fn same_state(dump: &str, state: &State) -> Result<(), String> {
    if dump::read(dump).as_ref() == Some(state) { Ok(()) } else { Err("the dump is read as another state".to_string()) }
}

/// Full, the other way round: the Rust, with no limits, accepts the call and then holds more than the limits.
fn needs_more_than_the_limits(call: &Call, before: &Reference) -> Result<(), String> {
    let mut unlimited = before.document.clone();
    match apply(&mut unlimited, call) {
        Answer::Refused(number) => Err(format!("14 where the Rust refuses with {number}")),
        _ if Limits::held(&unlimited).within(&before.limits) => Err("14 with room left".to_string()),
        _ => Ok(()),
    }
}
