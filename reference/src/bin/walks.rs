//! Walks with edits between their steps: `walks SEED WALKS`.

use reference::walks;
use std::process::ExitCode;

fn main() -> ExitCode {
    let numbers: Option<Vec<u64>> = std::env::args().skip(1).map(|word| word.parse().ok()).collect();
    let Some([seed, count]) = numbers.as_deref() else {
        eprintln!("walks SEED WALKS");
        return ExitCode::from(2);
    };
    match walks(*seed, *count) {
        Ok(tally) => {
            println!(
                "{} walks with {} accepted edits between their steps ended; {} of them came to the node limit",
                tally.walks, tally.edits, tally.longest
            );
            println!("{} nodes were listed, each of which resolved", tally.nodes);
            ExitCode::SUCCESS
        }
        Err(fault) => {
            eprintln!("{fault}");
            ExitCode::FAILURE
        }
    }
}
