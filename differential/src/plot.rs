//! Lines on two logarithmic axes, as an SVG.

pub struct Line {
    pub name: &'static str,
    /// the library's line is whole, the Rust's dashed
    pub whole: bool,
    pub points: Vec<(f64, f64)>,
}

const COLOURS: [&str; 7] = ["#1b6ca8", "#888888", "#c0392b", "#27824b", "#8e44ad", "#b9770e", "#222222"];
const LEFT: f64 = 60.0;
const TOP: f64 = 20.0;
const WIDTH: f64 = 520.0;
const HEIGHT: f64 = 340.0;

/// Nodes from 1 to 126 across, microseconds from 0.1 to 10,000 upwards.
fn place((nodes, micros): (f64, f64)) -> (f64, f64) {
    let x = LEFT + WIDTH * nodes.ln() / 126f64.ln();
    let y = TOP + HEIGHT * (1.0 - (micros.log10() + 1.0) / 5.0);
    (x, y)
}

fn text(x: f64, y: f64, anchor: &str, words: &str) -> String {
    format!("<text x=\"{x:.0}\" y=\"{y:.0}\" text-anchor=\"{anchor}\">{words}</text>\n")
}

pub fn svg(lines: &[Line]) -> String {
    let mut out = String::from(
        "<svg xmlns=\"http://www.w3.org/2000/svg\" width=\"760\" height=\"420\" font-family=\"sans-serif\" font-size=\"12\">\n\
         <rect width=\"760\" height=\"420\" fill=\"white\"/>\n",
    );
    let stroke = |x1: f64, y1: f64, x2: f64, y2: f64| format!("<path d=\"M{x1:.1} {y1:.1}L{x2:.1} {y2:.1}\" stroke=\"#ddd\"/>\n");
    for micros in [0.1, 1.0, 10.0, 100.0, 1000.0, 10000.0] {
        let (x, y) = place((1.0, micros));
        out += &stroke(x, y, x + WIDTH, y);
        out += &text(x - 6.0, y + 4.0, "end", &micros.to_string());
    }
    for nodes in [1.0, 7.0, 10.0, 50.0, 126.0] {
        let (x, y) = place((nodes, 0.1));
        out += &stroke(x, y, x, y - HEIGHT);
        out += &text(x, y + 16.0, "middle", &nodes.to_string());
    }
    out += &text(LEFT + WIDTH / 2.0, TOP + HEIGHT + 36.0, "middle", "nodes of the plan");
    out += &text(LEFT, TOP - 6.0, "middle", "microseconds a call");
    for (i, line) in lines.iter().filter(|l| !l.points.is_empty()).enumerate() {
        let colour = COLOURS[i / 2 % COLOURS.len()];
        let dash = if line.whole { "" } else { " stroke-dasharray=\"5 4\"" };
        let points: Vec<String> = line.points.iter().map(|p| place(*p)).map(|(x, y)| format!("{x:.1},{y:.1}")).collect();
        out +=
            &format!("<polyline points=\"{}\" fill=\"none\" stroke=\"{colour}\" stroke-width=\"2\"{dash}/>\n", points.join(" "));
        let y = TOP + 14.0 + 18.0 * i as f64;
        let x = LEFT + WIDTH + 14.0;
        out += &format!("<path d=\"M{x} {y}h24\" stroke=\"{colour}\" stroke-width=\"2\"{dash}/>\n");
        out += &text(x + 30.0, y + 4.0, "start", &format!("{}, {}", line.name, if line.whole { "library" } else { "Rust" }));
    }
    out + "</svg>\n"
}
