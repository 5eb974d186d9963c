//! The times of editing calls against the number of nodes, both scales logarithmic, as SVG.

use super::Figures;
use std::fmt::Write;

const WIDTH: f64 = 760.0;
const HEIGHT: f64 = 460.0;
const MARGIN: f64 = 60.0;
const COLOURS: [&str; 7] = ["#1b6ca8", "#c8553d", "#588157", "#8e5572", "#b07d2b", "#3d405b", "#777777"];

/// From the decade of the least time to that of the greatest.
struct Scale {
    low: f64,
    high: f64,
    left: f64,
    right: f64,
}

impl Scale {
    fn of(all: &[Figures], lines: &[(String, Vec<f64>)]) -> Scale {
        let logs = || lines.iter().flat_map(|(_, times)| times).map(|time| time.log10());
        Scale {
            low: logs().fold(f64::INFINITY, f64::min).floor(),
            high: logs().fold(f64::NEG_INFINITY, f64::max).ceil(),
            left: (all[0].nodes as f64).log10(),
            right: (all[all.len() - 1].nodes as f64).log10(),
        }
    }

    fn x(&self, nodes: usize) -> f64 {
        MARGIN + ((nodes as f64).log10() - self.left) / (self.right - self.left) * (WIDTH - 4.0 * MARGIN)
    }

    fn y(&self, log: f64) -> f64 {
        HEIGHT - MARGIN - (log - self.low) / (self.high - self.low) * (HEIGHT - 2.0 * MARGIN)
    }
}

/// The floor, four times it, and the kinds that differ most.
fn lines(all: &[Figures]) -> Vec<(String, Vec<f64>)> {
    let of = |name: &str| {
        let time = |figures: &Figures| figures.edits.iter().find(|row| row.name == name).map_or(1.0, |row| row.port);
        (name.to_string(), all.iter().map(time).collect())
    };
    vec![
        ("the floor".to_string(), all.iter().map(|figures| figures.floor).collect()),
        ("4 times the floor".to_string(), all.iter().map(|figures| 4.0 * figures.floor).collect()),
        of("append_text"),
        of("reparent"),
        of("remove, a zone"),
        of("remove, a district"),
        of("compact"),
    ]
}

pub(super) fn plot(all: &[Figures]) -> String {
    let lines = lines(all);
    let scale = Scale::of(all, &lines);
    let mut out = format!(
        "<svg xmlns=\"http://www.w3.org/2000/svg\" width=\"{WIDTH}\" height=\"{HEIGHT}\" font-family=\"sans-serif\" font-size=\"12\">\n<rect width=\"100%\" height=\"100%\" fill=\"white\"/>\n"
    );
    axes(&mut out, all, &scale);
    for (k, (name, times)) in lines.iter().enumerate() {
        line(&mut out, all, &scale, (k, name, times));
    }
    out.push_str("</svg>\n");
    out
}

fn axes(out: &mut String, all: &[Figures], scale: &Scale) {
    let (left, right) = (MARGIN, WIDTH - 3.0 * MARGIN);
    let mut decade = scale.low;
    while decade <= scale.high {
        let y = scale.y(decade);
        let label = 10_f64.powf(decade - 3.0);
        write!(out, "<path d=\"M{left} {y}H{right}\" stroke=\"#dddddd\"/><text x=\"{}\" y=\"{}\" text-anchor=\"end\">{label} µs</text>\n", left - 6.0, y + 4.0)
            .expect("a String takes everything");
        decade += 1.0;
    }
    for figures in all {
        let (x, y) = (scale.x(figures.nodes), HEIGHT - MARGIN + 18.0);
        write!(out, "<text x=\"{x}\" y=\"{y}\" text-anchor=\"middle\">{} nodes</text>\n", figures.nodes)
            .expect("a String takes everything");
    }
}

fn line(out: &mut String, all: &[Figures], scale: &Scale, (k, name, times): (usize, &str, &[f64])) {
    let points: Vec<String> = all
        .iter()
        .zip(times)
        .map(|(figures, time)| format!("{:.1},{:.1}", scale.x(figures.nodes), scale.y(time.log10())))
        .collect();
    let dashes = if k < 2 { " stroke-dasharray=\"5 4\"" } else { "" };
    let colour = COLOURS[k];
    let (x, y) = (WIDTH - 3.0 * MARGIN + 16.0, MARGIN + 20.0 * k as f64);
    write!(
        out,
        "<polyline points=\"{}\" fill=\"none\" stroke=\"{colour}\" stroke-width=\"2\"{dashes}/><text x=\"{x}\" y=\"{y}\" fill=\"{colour}\">{name}</text>\n",
        points.join(" ")
    )
    .expect("a String takes everything");
}
