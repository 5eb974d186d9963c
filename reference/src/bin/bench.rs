//! Measures the port beside the Rust: `bench PLOT.svg > TABLES`.

use std::process::ExitCode;

fn main() -> ExitCode {
    let Some(path) = std::env::args().nth(1) else {
        eprintln!("bench PLOT.svg > TABLES");
        return ExitCode::from(2);
    };
    let written = reference::bench().and_then(|figures| {
        print!("{}", figures.tables);
        std::fs::write(&path, figures.plot).map_err(|error| format!("{path}: {error}"))
    });
    match written {
        Ok(()) => ExitCode::SUCCESS,
        Err(fault) => {
            eprintln!("{fault}");
            ExitCode::FAILURE
        }
    }
}
