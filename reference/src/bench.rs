//! The benchmark: the port's static library beside the Rust, on the same registers with the same calls, and the floor of an editing call: clearing the scratch and reading the words in
//! use once.

mod entries;
mod measure;
mod plot;
mod reading;
mod register;
mod shapes;
mod table;
mod walking;

use measure::Row;
use register::Register;

/// Nodes of the registers.
const SIZES: [usize; 3] = [1_000, 8_000, 60_000];

/// What was measured at one size; times are nanoseconds a call.
struct Figures {
    nodes: usize,
    floor: f64,
    edits: Vec<Row>,
    reads: Vec<Row>,
}

/// The tables, and the plot as SVG.
pub struct Benchmark {
    pub tables: String,
    pub plot: String,
}

/// Measures all sizes; takes some minutes.
///
/// # Errors
///
/// A call that the two sides answer differently.
pub fn bench() -> Result<Benchmark, String> {
    let mut all = Vec::new();
    for nodes in SIZES {
        let register = Register::of(nodes);
        let mut edits = vec![measure::building(nodes)?];
        edits.extend(measure::edits(&register)?);
        all.push(Figures { nodes, floor: measure::floor(&register), edits, reads: reading::reads(&register)? });
    }
    let walks = walking::walks()?;
    Ok(Benchmark { tables: table::tables(&all) + &table::walks(&walks), plot: plot::plot(&all) })
}
