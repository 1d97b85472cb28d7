//! The growth plot: time against length on doubling axes, a panel for each call.

use crate::runs::Printed;
use std::fmt::Write as _;

/// Length in bytes, and milliseconds of ours and of the Rust.
type Point = [f64; 3];

const WIDTH: f64 = 260.0;
const HEIGHT: f64 = 220.0;
const MARGIN: f64 = 56.0;
const COLOURS: [(&str, &str); 2] = [("ours", "#1b6ca8"), ("Rust", "#c2571a")];

/// A drawing of the growing script loads, where some were measured.
pub fn growth(measured: &[Printed]) -> Option<String> {
    let panels: Vec<_> = measured
        .iter()
        .map(|printed| (printed.word, points(&printed.text)))
        .filter(|(_, points)| points.len() > 1)
        .collect();
    (!panels.is_empty()).then(|| drawing(&panels))
}

/// The lines `script, N titles, B bytes  OURS  RUST ..`.
fn points(text: &str) -> Vec<Point> {
    text.lines().filter_map(point).collect()
}

fn point(line: &str) -> Option<Point> {
    let (load, times) = line.strip_prefix("script, ")?.split_once(" bytes")?;
    let (_, bytes) = load.rsplit_once(' ')?;
    let mut times = times.split_whitespace().map(str::parse);
    let (ours, rust) = (times.next()?.ok()?, times.next()?.ok()?);
    Some([bytes.parse().ok()?, ours, rust])
}

fn drawing(panels: &[(&str, Vec<Point>)]) -> String {
    let width = panels.len() as f64 * (WIDTH + MARGIN) + MARGIN;
    let height = HEIGHT + 2.0 * MARGIN;
    let mut svg = format!(
        "<svg xmlns=\"http://www.w3.org/2000/svg\" viewBox=\"0 0 {width} {height}\" \
         font-family=\"sans-serif\" font-size=\"11\" fill=\"#333\">\n\
         <rect width=\"{width}\" height=\"{height}\" fill=\"white\"/>\n"
    );
    for (i, (word, points)) in panels.iter().enumerate() {
        let left = MARGIN + i as f64 * (WIDTH + MARGIN);
        let _ = writeln!(svg, "<g transform=\"translate({left} {MARGIN})\">");
        svg += &panel(word, points);
        svg += "</g>\n";
    }
    svg + "</svg>\n"
}

/// From the power of two below the least to the one above the greatest.
struct Axis {
    from: f64,
    to: f64,
    length: f64,
}

impl Axis {
    fn over(values: impl Iterator<Item = f64> + Clone, length: f64) -> Axis {
        let least = values.clone().fold(f64::INFINITY, f64::min);
        let greatest = values.fold(0.0, f64::max);
        let from = least.log2().floor();
        Axis {
            from,
            to: greatest.log2().ceil().max(from + 1.0),
            length,
        }
    }

    fn at(&self, value: f64) -> f64 {
        (value.log2() - self.from) / (self.to - self.from) * self.length
    }

    fn marks(&self) -> impl Iterator<Item = f64> {
        (self.from as i32..=self.to as i32).map(|power| 2f64.powi(power))
    }
}

fn panel(word: &str, points: &[Point]) -> String {
    let across = Axis::over(points.iter().map(|p| p[0] / 1e6), WIDTH);
    let up = Axis::over(points.iter().flat_map(|p| [p[1], p[2]]), HEIGHT);
    let mut svg = format!("<text x=\"0\" y=\"-34\" font-size=\"14\">{word}</text>\n");
    let _ = writeln!(svg, "<text x=\"0\" y=\"-18\">ms against MB</text>");
    for mark in across.marks() {
        let x = across.at(mark);
        let _ = writeln!(
            svg,
            "<path d=\"M{x:.1} 0V{HEIGHT}\" stroke=\"#ddd\"/><text x=\"{x:.1}\" y=\"{}\" text-anchor=\"middle\">{mark}</text>",
            HEIGHT + 16.0
        );
    }
    for mark in up.marks() {
        let y = HEIGHT - up.at(mark);
        let _ = writeln!(
            svg,
            "<path d=\"M0 {y:.1}H{WIDTH}\" stroke=\"#ddd\"/><text x=\"-6\" y=\"{:.1}\" text-anchor=\"end\">{mark}</text>",
            y + 4.0
        );
    }
    for (side, (name, colour)) in COLOURS.iter().enumerate() {
        let places: Vec<_> = points
            .iter()
            .map(|p| {
                format!(
                    "{:.1} {:.1}",
                    across.at(p[0] / 1e6),
                    HEIGHT - up.at(p[side + 1])
                )
            })
            .collect();
        let _ = writeln!(
            svg,
            "<path d=\"M{}\" fill=\"none\" stroke=\"{colour}\" stroke-width=\"2\"/>",
            places.join("L")
        );
        let _ = writeln!(
            svg,
            "<text x=\"{}\" y=\"-18\" fill=\"{colour}\">{name}</text>",
            120 + 50 * side
        );
    }
    svg
}

#[cfg(test)]
mod tests {
    use super::*;

    #[test]
    fn a_line_of_a_script_is_a_point() {
        let line =
            "script, 10000 titles, 1048576 bytes          2.50      5.00      0.50          2.38";
        assert_eq!(point(line), Some([1_048_576.0, 2.5, 5.0]));
        assert_eq!(point("100000 strings, 5 bytes 1 2 3"), None);
        assert_eq!(
            point("time per byte, largest over smallest script: 1.1"),
            None
        );
    }

    #[test]
    fn axes_double_from_mark_to_mark() {
        let axis = Axis::over([1.5, 12.0].into_iter(), 100.0);
        assert_eq!(axis.marks().collect::<Vec<_>>(), [1.0, 2.0, 4.0, 8.0, 16.0]);
        assert_eq!(axis.at(4.0), 50.0);
    }
}
