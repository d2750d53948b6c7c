//! The plot: the ratio against the side, a line for each call with a target, on
//! banded rows of 5 and the larger region.

use super::Line;
use super::figures::{figure, grouped};
use crate::bench::Key;

const WIDTH: f64 = 900.0;
const HEIGHT: f64 = 520.0;
const LEFT: f64 = 64.0;
const RIGHT: f64 = 580.0;
const TOP: f64 = 48.0;
const BOTTOM: f64 = 464.0;
const LEGEND: f64 = 626.0;

const COLOURS: [&str; 9] = [
    "#1b6ca8", "#d1495b", "#2e933c", "#8f5fbf", "#c77d0a", "#128a8a", "#7a4b2a", "#444444",
    "#c2438f",
];

/// Both axes are logarithmic.
struct Axes {
    sides: [f64; 2],
    ratios: [f64; 2],
}

impl Axes {
    fn x(&self, side: f64) -> f64 {
        LEFT + (RIGHT - LEFT) * part(side, self.sides)
    }

    fn y(&self, ratio: f64) -> f64 {
        BOTTOM - (BOTTOM - TOP) * part(ratio, self.ratios)
    }
}

fn part(value: f64, [least, most]: [f64; 2]) -> f64 {
    (value / least).ln() / (most / least).ln()
}

pub fn text(lines: &[Line]) -> String {
    let mut drawn: Vec<&Line> = lines.iter().filter(|line| is_drawn(line.key)).collect();
    // In the order in which the lines end, so that the legend follows them.
    drawn.sort_by(|a, b| end(b).total_cmp(&end(a)));
    let points = drawn.iter().flat_map(|line| points(line));
    let points: Vec<(f64, f64)> = points.collect();
    let Some(axes) = axes(&points) else {
        return String::from("<svg xmlns=\"http://www.w3.org/2000/svg\"/>\n");
    };
    let mut svg = format!(
        "<svg xmlns=\"http://www.w3.org/2000/svg\" viewBox=\"0 0 {WIDTH} {HEIGHT}\" \
         width=\"{WIDTH}\" height=\"{HEIGHT}\" font-family=\"sans-serif\" font-size=\"13\">\n\
         <rect width=\"{WIDTH}\" height=\"{HEIGHT}\" fill=\"white\"/>\n\
         <text x=\"{LEFT}\" y=\"26\" font-size=\"15\">Time of the port as a part of the Rust's, banded rows of 5 entries; targets dashed</text>\n"
    );
    svg.push_str(&grid(&axes, &points));
    svg.push_str(&targets(&axes, &drawn));
    for (place, line) in drawn.iter().enumerate() {
        svg.push_str(&curve(&axes, place, line));
    }
    svg.push_str("</svg>\n");
    svg
}

fn is_drawn(key: &Key) -> bool {
    let inputs = [
        "",
        "1 % seeds, 4 hops",
        "30 % of the nodes",
        "blocks of 3, 30 % of the nodes",
    ];
    let shape = key.shape.columns.is_empty() || key.shape.entries == 5;
    key.target().is_some() && shape && inputs.contains(&key.input.as_str())
}

fn points(line: &Line) -> Vec<(f64, f64)> {
    let rows = line.rows.iter();
    rows.filter_map(|row| Some((row.side as f64, row.ratio()?)))
        .filter(|point| point.1 > 0.0)
        .collect()
}

fn end(line: &Line) -> f64 {
    points(line).last().map_or(0.0, |point| point.1)
}

/// From the first side to the last, and over all ratios and targets.
fn axes(points: &[(f64, f64)]) -> Option<Axes> {
    let least = |values: &mut dyn Iterator<Item = f64>| values.reduce(f64::min);
    let most = |values: &mut dyn Iterator<Item = f64>| values.reduce(f64::max);
    let mut sides = points.iter().map(|point| point.0);
    let first = least(&mut sides.clone())?;
    let last = most(&mut sides)?;
    let mut ratios = points.iter().map(|point| point.1);
    let low = least(&mut ratios.clone())?.min(0.3);
    let high = most(&mut ratios)?.max(1.0);
    (first < last).then(|| Axes {
        sides: [first / 1.15, last * 1.15],
        ratios: [low / 1.2, high * 1.25],
    })
}

fn grid(axes: &Axes, points: &[(f64, f64)]) -> String {
    let mut svg = String::new();
    let mut sides: Vec<usize> = points.iter().map(|point| point.0 as usize).collect();
    sides.sort_unstable();
    sides.dedup();
    for side in sides {
        let (x, below) = (axes.x(side as f64), BOTTOM + 20.0);
        svg.push_str(&format!(
            "<path d=\"M{x:.1} {TOP}V{BOTTOM}\" stroke=\"#e4e4e4\"/>\n\
             <text x=\"{x:.1}\" y=\"{below}\" text-anchor=\"middle\">{}</text>\n",
            grouped(side)
        ));
    }
    for ratio in [0.01, 0.02, 0.05, 0.1, 0.2, 0.5, 1.0, 2.0, 5.0, 10.0] {
        if (axes.ratios[0]..axes.ratios[1]).contains(&ratio) {
            let (y, before) = (axes.y(ratio), LEFT - 8.0);
            svg.push_str(&format!(
                "<path d=\"M{LEFT} {y:.1}H{RIGHT}\" stroke=\"#e4e4e4\"/>\n\
                 <text x=\"{before}\" y=\"{:.1}\" text-anchor=\"end\">{ratio}</text>\n",
                y + 4.5
            ));
        }
    }
    let (middle, below) = ((LEFT + RIGHT) / 2.0, BOTTOM + 42.0);
    svg + &format!(
        "<rect x=\"{LEFT}\" y=\"{TOP}\" width=\"{}\" height=\"{}\" fill=\"none\" stroke=\"#888\"/>\n\
         <text x=\"{middle}\" y=\"{below}\" text-anchor=\"middle\">side of the matrix</text>\n",
        RIGHT - LEFT,
        BOTTOM - TOP
    )
}

/// A dashed line for each target, its figure at the right end.
fn targets(axes: &Axes, drawn: &[&Line]) -> String {
    let mut targets: Vec<f64> = drawn.iter().filter_map(|line| line.key.target()).collect();
    targets.sort_by(f64::total_cmp);
    targets.dedup();
    let shown = targets.iter().map(|&target| {
        let (y, x) = (axes.y(target), RIGHT + 5.0);
        format!(
            "<path d=\"M{LEFT} {y:.1}H{RIGHT}\" stroke=\"#222\" stroke-width=\"1.3\" stroke-dasharray=\"6 4\"/>\n\
             <text x=\"{x}\" y=\"{:.1}\" font-weight=\"bold\">{target:.1}</text>\n",
            y + 4.5
        )
    });
    shown.collect()
}

fn curve(axes: &Axes, place: usize, line: &Line) -> String {
    let colour = COLOURS[place % COLOURS.len()];
    let at = |(side, ratio): (f64, f64)| (axes.x(side), axes.y(ratio));
    let points: Vec<(f64, f64)> = points(line).into_iter().map(at).collect();
    let corners: Vec<String> = points
        .iter()
        .map(|(x, y)| format!("{x:.1},{y:.1}"))
        .collect();
    let mut svg = format!(
        "<polyline points=\"{}\" fill=\"none\" stroke=\"{colour}\" stroke-width=\"2\"/>\n",
        corners.join(" ")
    );
    for (x, y) in points {
        svg.push_str(&format!(
            "<circle cx=\"{x:.1}\" cy=\"{y:.1}\" r=\"3.5\" fill=\"{colour}\"/>\n"
        ));
    }
    svg + &legend(place, colour, line)
}

fn legend(place: usize, colour: &str, line: &Line) -> String {
    let key = line.key;
    let target = key.target().unwrap_or_default();
    let last = figure(end(line));
    let part = if key.work { "work" } else { "whole call" };
    let input = match key.input.as_str() {
        "" => String::new(),
        input => format!("; {input}"),
    };
    let (y, ends) = (TOP + 8.0 + 46.0 * place as f64, LEGEND + 22.0);
    let text = ends + 8.0;
    let [first, second, third] = [4.5, 18.5, 32.0].map(|below| y + below);
    format!(
        "<path d=\"M{LEGEND} {y:.1}H{ends}\" stroke=\"{colour}\" stroke-width=\"3\"/>\n\
         <text x=\"{text}\" y=\"{first:.1}\">{}</text>\n\
         <g font-size=\"11\" fill=\"#555\">\n\
         <text x=\"{text}\" y=\"{second:.1}\">target {target:.1}, at the largest side {last}</text>\n\
         <text x=\"{text}\" y=\"{third:.1}\">{part}{input}</text>\n\
         </g>\n",
        key.call
    )
}
