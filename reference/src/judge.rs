//! Dumps judged by the structure rules, whoever wrote them.

use crate::dump;
use crate::limits::{Limits, OWN};
use crate::rules;

/// One line for each dump of `text`: `ok`, `broken` with the numbers of the rules, or `unreadable`. Other lines are passed over. Without limits, those of a
/// list that chooses none.
#[must_use]
pub fn judge(text: &str, limits: Option<[u64; 8]>) -> Vec<String> {
    let limits = limits.and_then(|numbers| Limits::from_numbers(&numbers)).unwrap_or(OWN);
    dumps(text).iter().map(|dump| verdict(dump, &limits)).collect()
}

/// The lines from each `dump` to its `end`.
fn dumps(text: &str) -> Vec<String> {
    let mut dumps: Vec<String> = Vec::new();
    let mut inside = false;
    for line in text.lines() {
        if line == "dump" {
            inside = true;
            dumps.push(line.to_string());
        } else if inside && let Some(dump) = dumps.last_mut() {
            dump.push('\n');
            dump.push_str(line);
            inside = line != "end";
        }
    }
    dumps
}

fn verdict(text: &str, limits: &Limits) -> String {
    let Some(state) = dump::read(text) else {
        return "unreadable".to_string();
    };
    let broken = rules::broken(&state, limits);
    if broken.is_empty() {
        return "ok".to_string();
    }
    let numbers: Vec<String> = broken.iter().map(usize::to_string).collect();
    format!("broken {}", numbers.join(" "))
}
