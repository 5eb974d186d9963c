//! Tries two moves in either order on the port and on the Rust: `orders SEED PAIRS`.

use reference::orders;
use std::process::ExitCode;

fn main() -> ExitCode {
    let numbers: Option<Vec<u64>> = std::env::args().skip(1).map(|word| word.parse().ok()).collect();
    let Some([seed, pairs]) = numbers.as_deref() else {
        eprintln!("orders SEED PAIRS");
        return ExitCode::from(2);
    };
    match orders(*seed, *pairs) {
        Ok(tally) => {
            println!(
                "{} pairs of moves without a node or a parent in common ended alike; in {} the ranges differ",
                tally.apart, tally.ranges_differ
            );
            println!("{} pairs with one in common, of which {} ended differently", tally.others, tally.others_differ);
            ExitCode::SUCCESS
        }
        Err(fault) => {
            eprintln!("{fault}");
            ExitCode::FAILURE
        }
    }
}
