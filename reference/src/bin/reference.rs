//! Answers a call list: `reference [--check] [--coverage] < LIST`.

use reference::{Options, run};
use std::io::{self, BufReader, BufWriter};
use std::process::ExitCode;

fn options() -> Option<Options> {
    let mut options = Options::default();
    for argument in std::env::args().skip(1) {
        match argument.as_str() {
            "--check" => options.check = true,
            "--coverage" => options.coverage = true,
            _ => return None,
        }
    }
    Some(options)
}

fn main() -> ExitCode {
    let Some(options) = options() else {
        eprintln!("reference [--check] [--coverage] < LIST");
        return ExitCode::from(2);
    };
    let output = BufWriter::new(io::stdout().lock());
    match run(BufReader::new(io::stdin().lock()), output, options) {
        Err(error) => {
            eprintln!("{error}");
            ExitCode::from(2)
        }
        Ok(report) => {
            eprint!("{}", report.coverage);
            report.fault.map_or(ExitCode::SUCCESS, |fault| {
                eprintln!("{fault}");
                ExitCode::FAILURE
            })
        }
    }
}
