//! A list from its first line to its last.

use crate::check::Check;
use crate::coverage::Coverage;
use crate::driver::Reference;
use crate::limits::OWN;
use crate::parse::{LONGEST, parse};
use std::io::{self, BufRead, Write};

/// What to do beside answering.
#[derive(Clone, Copy, Default)]
pub struct Options {
    /// Test the rules, the plain tree and Full after each call.
    pub check: bool,
    /// Count the answers of each call.
    pub coverage: bool,
}

/// What a run found.
#[derive(Default)]
pub struct Report {
    pub calls: u64,
    /// The first fault that the check found.
    pub fault: Option<String>,
    /// Each call's answers with their counts.
    pub coverage: String,
    pub labels: Vec<String>,
}

/// Answers the lines of `input`, one line for each, and stops at the first fault.
///
/// # Errors
///
/// Those of reading and writing.
pub fn run(input: impl BufRead, output: impl Write, options: Options) -> io::Result<Report> {
    let mut session = Session::new(options);
    answer_lines(input, output, |line, number| {
        let answer = session.line(line, number);
        (answer, session.report.fault.is_none())
    })?;
    Ok(session.finish())
}

/// The same by the port, through its static library.
///
/// # Errors
///
/// Those of reading and writing, and the refusal of the program's own limits.
#[cfg(feature = "port")]
pub fn run_port(input: impl BufRead, output: impl Write) -> io::Result<()> {
    let mut port = crate::port::Port::fresh(&OWN).map_err(io::Error::other)?;
    answer_lines(input, output, |line, number| {
        let answer = (!is_passed_over(line))
            .then(|| parse(line).map_or_else(|| format!("? {number}"), |line| port.answer(&line).to_string()));
        (answer, true)
    })
}

/// Each line with its number is answered, or not; until there is none, or the answer says to stop.
fn answer_lines(
    mut input: impl BufRead,
    mut output: impl Write,
    mut answer: impl FnMut(&[u8], u64) -> (Option<String>, bool),
) -> io::Result<()> {
    let mut line = Vec::new();
    let mut number = 0;
    let mut more = true;
    while more && input.read_until(b'\n', &mut line)? > 0 {
        number += 1;
        if line.last() == Some(&b'\n') {
            line.pop();
        }
        let (text, goes_on) = answer(&line, number);
        if let Some(text) = text {
            output.write_all(text.as_bytes())?;
            output.write_all(b"\n")?;
        }
        more = goes_on;
        line.clear();
    }
    output.flush()
}

/// An empty line or a comment, unless it is too long to be read.
fn is_passed_over(line: &[u8]) -> bool {
    line.len() <= LONGEST && (line.is_empty() || line[0] == b'#')
}

struct Session {
    reference: Reference,
    check: Option<Check>,
    coverage: Option<Coverage>,
    report: Report,
}

impl Session {
    fn new(options: Options) -> Self {
        let reference = Reference::fresh(OWN);
        Session {
            check: options.check.then(|| Check::fresh(&reference)),
            coverage: options.coverage.then(Coverage::default),
            reference,
            report: Report::default(),
        }
    }

    /// The answer to a line; none to one that is passed over.
    fn line(&mut self, line: &[u8], number: u64) -> Option<String> {
        if is_passed_over(line) {
            return None;
        }
        let Some(line) = parse(line) else {
            return Some(format!("? {number}"));
        };
        self.report.calls += 1;
        if self.check.is_none() && self.coverage.is_none() {
            return Some(self.reference.answer(&line).to_string());
        }
        let before = self.reference.clone();
        let answer = self.reference.answer(&line);
        if let Some(coverage) = &mut self.coverage {
            coverage.count(&line, &answer, &before);
        }
        if let Some(check) = &mut self.check {
            let checked = check.line(&line, &answer, &before, &self.reference);
            self.report.fault = checked.err().map(|fault| format!("line {number}: {line}: {answer}: {fault}"));
        }
        Some(answer.to_string())
    }

    fn finish(mut self) -> Report {
        if let Some(coverage) = &self.coverage {
            self.report.coverage = coverage.table();
            self.report.labels = coverage.labels().cloned().collect();
        }
        self.report
    }
}
