//! Tries damaged states of memory on the port: `damage SEED STATES`.

use reference::damage;
use std::process::ExitCode;

fn main() -> ExitCode {
    let numbers: Option<Vec<u64>> = std::env::args().skip(1).map(|word| word.parse().ok()).collect();
    let Some([seed, states]) = numbers.as_deref() else {
        eprintln!("damage SEED STATES");
        return ExitCode::from(2);
    };
    match damage(*seed, *states) {
        Ok(tally) => {
            println!(
                "{} damaged states: {} break a rule, {} keep them all, {} have limits or lengths that are refused",
                tally.states, tally.broken, tally.sound, tally.refused
            );
            println!(
                "{} calls, each answered as it is due; every accepted one left a document that keeps the rules",
                tally.calls
            );
            println!(
                "{} walks from nodes and from made-up positions ended, {} of them at the node limit; they listed {} nodes, each of which resolved",
                tally.walks.walks, tally.walks.longest, tally.walks.nodes
            );
            ExitCode::SUCCESS
        }
        Err(fault) => {
            eprintln!("{fault}");
            ExitCode::FAILURE
        }
    }
}
