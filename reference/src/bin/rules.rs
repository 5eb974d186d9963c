//! Says of each dump which structure rules it breaks: `rules [N A B C T TEXTBYTES NAMES NAMEBYTES] < ANSWERS`.

use reference::judge;
use std::io::Read;
use std::process::ExitCode;

fn limits(arguments: &[String]) -> Option<[u64; 8]> {
    let numbers: Option<Vec<u64>> = arguments.iter().map(|word| word.parse().ok()).collect();
    numbers?.try_into().ok()
}

fn main() -> ExitCode {
    let arguments: Vec<String> = std::env::args().skip(1).collect();
    let limits = limits(&arguments);
    let mut text = String::new();
    if (limits.is_none() && !arguments.is_empty()) || std::io::stdin().read_to_string(&mut text).is_err() {
        eprintln!("rules [N A B C T TEXTBYTES NAMES NAMEBYTES] < ANSWERS");
        return ExitCode::from(2);
    }
    let verdicts = judge(&text, limits);
    for verdict in &verdicts {
        println!("{verdict}");
    }
    if verdicts.iter().all(|verdict| verdict == "ok") { ExitCode::SUCCESS } else { ExitCode::FAILURE }
}
