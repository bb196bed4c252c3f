//! How the cost grows, drawn as SVG: both axes double with each line.

use std::fmt::Write as _;

use milebeacon::Sizes;

use crate::measure::Costs;

const WIDTH: f64 = 720.0;
const HEIGHT: f64 = 440.0;
const LEFT: f64 = 70.0;
const BOTTOM: f64 = 380.0;
const TOP: f64 = 50.0;
const RIGHT: f64 = 540.0;

type Curve = (&'static str, &'static str, fn(&Costs) -> f64);

const CURVES: [Curve; 4] = [
    ("second program, submit", "#b5532c", |costs| {
        costs.second_submit
    }),
    ("core, submit", "#1f5f8b", |costs| costs.core_submit),
    ("core, is it sound", "#6fa8c9", |costs| costs.core_sound),
    ("one plain read", "#777777", |costs| costs.read),
];

/// Where a time lies on the vertical axis.
struct Scale {
    least: f64,
    most: f64,
}

impl Scale {
    fn of(rows: &[(Sizes, Costs)]) -> Scale {
        let all = rows
            .iter()
            .flat_map(|(_, costs)| CURVES.iter().map(|curve| curve.2(costs)));
        let (least, most) = all.fold((f64::MAX, f64::MIN), |(a, b), c| (a.min(c), b.max(c)));
        Scale {
            least: least.log10().floor(),
            most: most.log10().ceil(),
        }
    }

    fn y(&self, time: f64) -> f64 {
        BOTTOM - (time.log10() - self.least) / (self.most - self.least) * (BOTTOM - TOP)
    }
}

fn x(place: usize, count: usize) -> f64 {
    LEFT + place as f64 / (count - 1).max(1) as f64 * (RIGHT - LEFT)
}

/// The drawing.
pub fn growth(rows: &[(Sizes, Costs)]) -> String {
    let scale = Scale::of(rows);
    let mut svg = format!(
        "<svg xmlns=\"http://www.w3.org/2000/svg\" viewBox=\"0 0 {WIDTH} {HEIGHT}\" \
         font-family=\"sans-serif\" font-size=\"13\">\n\
         <rect width=\"{WIDTH}\" height=\"{HEIGHT}\" fill=\"white\"/>\n\
         <text x=\"{LEFT}\" y=\"24\" font-size=\"15\">One call on nearly full tables, in microseconds, \
         as the tables double</text>\n"
    );
    for power in scale.least as i32..=scale.most as i32 {
        let time = 10f64.powi(power);
        let y = scale.y(time);
        let _ = writeln!(
            svg,
            "<line x1=\"{LEFT}\" y1=\"{y:.1}\" x2=\"{RIGHT}\" y2=\"{y:.1}\" stroke=\"#dddddd\"/>\
             <text x=\"{:.1}\" y=\"{:.1}\" text-anchor=\"end\">{time}</text>",
            LEFT - 8.0,
            y + 4.0
        );
    }
    for (place, (sizes, _)) in rows.iter().enumerate() {
        let x = x(place, rows.len());
        let _ = writeln!(
            svg,
            "<text x=\"{x:.1}\" y=\"{:.1}\" text-anchor=\"middle\">{}</text>",
            BOTTOM + 20.0,
            sizes.wallets
        );
    }
    let _ = writeln!(
        svg,
        "<text x=\"{:.1}\" y=\"{:.1}\" text-anchor=\"middle\">wallets (with 4 escrows, 4 receipts and 8 \
         journal rows to each)</text>",
        (LEFT + RIGHT) / 2.0,
        BOTTOM + 44.0
    );
    let ends = rows
        .last()
        .map(|(_, costs)| CURVES.map(|(_, _, of)| scale.y(of(costs))));
    let labels = apart(&ends.unwrap_or_default());
    for ((name, colour, of), label) in CURVES.into_iter().zip(labels) {
        curve(&mut svg, rows, &scale, colour, of);
        let _ = writeln!(
            svg,
            "<text x=\"{:.1}\" y=\"{:.1}\" fill=\"{colour}\">{name}</text>",
            RIGHT + 10.0,
            label + 4.0
        );
    }
    svg + "</svg>\n"
}

/// The places of the labels, from the top down, a line apart at least.
fn apart(ends: &[f64; CURVES.len()]) -> [f64; CURVES.len()] {
    let mut order: Vec<usize> = (0..ends.len()).collect();
    order.sort_by(|&a, &b| ends[a].total_cmp(&ends[b]));
    let mut places = *ends;
    let mut last = f64::MIN;
    for place in order {
        places[place] = places[place].max(last + 17.0);
        last = places[place];
    }
    places
}

/// One line, with its points.
fn curve(
    svg: &mut String,
    rows: &[(Sizes, Costs)],
    scale: &Scale,
    colour: &str,
    of: fn(&Costs) -> f64,
) {
    let points: Vec<(f64, f64)> = rows
        .iter()
        .enumerate()
        .map(|(place, (_, costs))| (x(place, rows.len()), scale.y(of(costs))))
        .collect();
    let path: Vec<String> = points
        .iter()
        .map(|(x, y)| format!("{x:.1},{y:.1}"))
        .collect();
    let _ = writeln!(
        svg,
        "<polyline points=\"{}\" fill=\"none\" stroke=\"{colour}\" stroke-width=\"2\"/>",
        path.join(" ")
    );
    for (x, y) in &points {
        let _ = writeln!(
            svg,
            "<circle cx=\"{x:.1}\" cy=\"{y:.1}\" r=\"3\" fill=\"{colour}\"/>"
        );
    }
}
