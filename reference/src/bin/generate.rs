//! Writes a random call list: `generate SEED COUNT PROFILE > LIST`; without arguments the names of the profiles.

use reference::{generate, profiles};
use std::process::ExitCode;

fn list(arguments: &[String]) -> Option<String> {
    let [seed, count, profile] = arguments else {
        return None;
    };
    generate(seed.parse().ok()?, count.parse().ok()?, profile)
}

fn main() -> ExitCode {
    let arguments: Vec<String> = std::env::args().skip(1).collect();
    if arguments.is_empty() {
        println!("{}", profiles().join("\n"));
        return ExitCode::SUCCESS;
    }
    match list(&arguments) {
        Some(list) => {
            print!("{list}");
            ExitCode::SUCCESS
        }
        None => {
            eprintln!("generate SEED COUNT PROFILE, with PROFILE one of {}", profiles().join(", "));
            ExitCode::from(2)
        }
    }
}
