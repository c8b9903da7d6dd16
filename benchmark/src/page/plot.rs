//! The plot: costs by size on logarithmic axes, a panel for each call; and bars.

use super::svg::{Anchor, Svg};

/// Costs at some sizes.
pub struct Series {
    /// Which of the legend's names it has.
    pub name: usize,
    /// Plain Rust's, which is dashed.
    pub plain: bool,
    /// Sizes and costs.
    pub points: Vec<(f64, f64)>,
}

/// The costs of a call.
pub struct Panel {
    pub title: &'static str,
    pub unit: &'static str,
    pub series: Vec<Series>,
}

/// Costs of some programs on one catalogue.
pub struct Bars {
    pub name: String,
    pub costs: Vec<(String, f64)>,
}

const WIDTH: f64 = 860.0;
const LINE: f64 = 18.0;
const PANEL: [f64; 2] = [WIDTH / 2.0, 270.0];
const BAR: f64 = 16.0;

/// The space around a panel's axes: left, right, above, below.
const AROUND: [f64; 4] = [58.0, 14.0, 30.0, 42.0];

/// Colours that are told apart on a light and on a dark ground.
const COLOURS: [&str; 13] = [
    "#4e79a7", "#f28e2b", "#e15759", "#3d9c95", "#59a14f", "#b07aa1", "#9c755f", "#e377b5",
    "#b8960c", "#6a5acd", "#2fb4e9", "#8a8f98", "#c23fbf",
];

fn style() -> String {
    let mut style = String::from(
        ".ground { fill: #ffffff }\n\
         text { font: 11px sans-serif; fill: #24292f }\n\
         .title { font-weight: bold; font-size: 13px }\n\
         .axis { stroke: #57606a }\n\
         .grid { stroke: #d0d7de; stroke-width: 0.5 }\n\
         polyline { fill: none; stroke-width: 1.8 }\n\
         .plain { stroke-dasharray: 5 3; stroke-width: 1.2 }\n\
         .sample { stroke: #57606a; fill: none }\n\
         .bar { fill: #6e7781 }\n",
    );
    for (i, colour) in COLOURS.iter().enumerate() {
        style += &format!(".line{i} {{ stroke: {colour} }}\n.fill{i} {{ fill: {colour} }}\n");
    }
    style
        + "@media (prefers-color-scheme: dark) {\n\
           .ground { fill: #0d1117 }\n\
           text { fill: #e6edf3 }\n\
           .axis, .sample { stroke: #8b949e }\n\
           .grid { stroke: #30363d }\n\
           }\n"
}

/// A logarithmic axis: from which value to which, and where these stand.
struct Axis {
    values: [f64; 2],
    places: [f64; 2],
}

impl Axis {
    fn place(&self, value: f64) -> f64 {
        let [from, to] = self.values;
        let part = (value / from).ln() / (to / from).ln();
        self.places[0] + part * (self.places[1] - self.places[0])
    }

    /// An axis of whole powers of ten around these values.
    fn decades(values: impl Iterator<Item = f64> + Clone, places: [f64; 2]) -> Axis {
        let least = values.clone().fold(f64::MAX, f64::min);
        let most = values.fold(0.0, f64::max);
        let [low, high] = [
            least.log10().floor(),
            most.log10().ceil().max(least.log10().floor() + 1.0),
        ];
        Axis {
            values: [low, high].map(|exponent| 10f64.powf(exponent)),
            places,
        }
    }

    /// The powers of ten on it.
    fn ticks(&self) -> Vec<f64> {
        let [low, high] = self.values.map(|value| value.log10().round() as i32);
        (low..=high).map(|exponent| 10f64.powi(exponent)).collect()
    }
}

/// A number as it is said at a tick: 1,000 and 0.01.
fn tick(value: f64) -> String {
    if value >= 1000.0 {
        super::grouped(value as usize)
    } else {
        value.to_string()
    }
}

fn draw_panel(svg: &mut Svg, panel: &Panel, [left, top]: [f64; 2]) {
    let [before, after, above, below] = AROUND;
    let [x0, x1] = [left + before, left + PANEL[0] - after];
    let [y0, y1] = [top + PANEL[1] - below, top + above];
    let points = || panel.series.iter().flat_map(|series| series.points.iter());
    let mut sizes: Vec<f64> = points().map(|point| point.0).collect();
    sizes.sort_by(f64::total_cmp);
    sizes.dedup();
    let across = Axis {
        values: [sizes[0] / 1.1, sizes[sizes.len() - 1] * 1.1],
        places: [x0, x1],
    };
    let up = Axis::decades(points().map(|point| point.1), [y0, y1]);
    let title = format!("{}, {}", panel.title, panel.unit);
    svg.text("title", [x0, top + 18.0], Anchor::Start, &title);
    for value in up.ticks() {
        let y = up.place(value);
        svg.line("grid", [x0, y], [x1, y]);
        svg.text("tick", [x0 - 6.0, y + 4.0], Anchor::End, &tick(value));
    }
    for &size in &sizes {
        let x = across.place(size);
        svg.line("grid", [x, y0], [x, y1]);
        svg.text("tick", [x, y0 + 15.0], Anchor::Middle, &tick(size));
    }
    svg.line("axis", [x0, y0], [x1, y0]);
    svg.line("axis", [x0, y0], [x0, y1]);
    svg.text(
        "tick",
        [(x0 + x1) / 2.0, y0 + 31.0],
        Anchor::Middle,
        "concepts",
    );
    for series in &panel.series {
        let at = |&(size, cost): &(f64, f64)| [across.place(size), up.place(cost)];
        let places: Vec<[f64; 2]> = series.points.iter().map(at).collect();
        let colour = series.name % COLOURS.len();
        match series.plain {
            true => svg.polyline(&format!("line{colour} plain"), &places),
            false => {
                svg.polyline(&format!("line{colour}"), &places);
                let class = format!("fill{colour}");
                places
                    .iter()
                    .for_each(|&place| svg.circle(&class, place, 2.6));
            }
        }
    }
}

/// How many names stand beside each other in the legend.
const ACROSS: usize = 4;

/// How high the legend is: its names, and a line that says who is dashed.
fn legend_height(names: &[&str]) -> f64 {
    LINE * (names.len().div_ceil(ACROSS) + 1) as f64 + 10.0
}

fn draw_legend(svg: &mut Svg, names: &[&str]) {
    let step = (WIDTH - AROUND[0]) / ACROSS as f64;
    let at = |i: usize| {
        let [column, row] = [i % ACROSS, i / ACROSS];
        [AROUND[0] + step * column as f64, LINE * (row + 1) as f64]
    };
    for (i, name) in names.iter().enumerate() {
        let [x, y] = at(i);
        let class = format!("fill{}", i % COLOURS.len());
        svg.rectangle(&class, [x, y - 9.0], [10.0, 10.0]);
        svg.text("name", [x + 16.0, y], Anchor::Start, name);
    }
    let [x, y] = at(names.len().next_multiple_of(ACROSS));
    svg.polyline("sample", &[[x, y - 4.0], [x + 28.0, y - 4.0]]);
    svg.text("name", [x + 34.0, y], Anchor::Start, "the library");
    let x = x + step;
    svg.polyline("sample plain", &[[x, y - 4.0], [x + 28.0, y - 4.0]]);
    svg.text(
        "name",
        [x + 34.0, y],
        Anchor::Start,
        "plain Rust (for change: classify afresh)",
    );
}

/// How high the bars are, with title and axis.
fn bars_height(bars: &[Bars]) -> f64 {
    let lines: usize = bars.iter().map(|group| 1 + group.costs.len()).sum();
    match bars.is_empty() {
        true => 0.0,
        false => AROUND[2] + BAR * lines as f64 + AROUND[3],
    }
}

fn draw_bars(svg: &mut Svg, bars: &[Bars], top: f64) {
    let (x0, height) = (200.0, bars_height(bars));
    let [y0, y1] = [top + height - AROUND[3], top + AROUND[2]];
    let costs = bars
        .iter()
        .flat_map(|group| group.costs.iter().map(|cost| cost.1));
    let along = Axis::decades(costs, [x0, WIDTH - 60.0]);
    let title = "whole processes at 512 concepts, milliseconds";
    svg.text("title", [AROUND[0], top + 18.0], Anchor::Start, title);
    for value in along.ticks() {
        let x = along.place(value);
        svg.line("grid", [x, y0], [x, y1]);
        svg.text("tick", [x, y0 + 15.0], Anchor::Middle, &tick(value));
    }
    svg.line("axis", [x0, y0], [x0, y1]);
    let mut y = y1;
    for group in bars {
        svg.text("name", [AROUND[0], y + 12.0], Anchor::Start, &group.name);
        y += BAR;
        for (program, cost) in &group.costs {
            let end = along.place(*cost);
            svg.text("name", [x0 - 6.0, y + 11.0], Anchor::End, program);
            svg.rectangle("bar", [x0, y + 2.0], [end - x0, BAR - 4.0]);
            svg.text(
                "name",
                [end + 5.0, y + 11.0],
                Anchor::Start,
                &super::digits(*cost),
            );
            y += BAR;
        }
    }
}

/// The picture: the panels two by two, with these names in the legend, and bars.
pub fn plot(names: &[&str], panels: &[Panel], bars: &[Bars]) -> String {
    let rows = panels.len().div_ceil(2) as f64;
    let legend = legend_height(names);
    let below = legend + rows * PANEL[1];
    let mut svg = Svg::new(WIDTH, below + bars_height(bars), &style());
    draw_legend(&mut svg, names);
    for (i, panel) in panels.iter().enumerate() {
        let place = [
            PANEL[0] * (i % 2) as f64,
            legend + PANEL[1] * (i / 2) as f64,
        ];
        draw_panel(&mut svg, panel, place);
    }
    if !bars.is_empty() {
        draw_bars(&mut svg, bars, below);
    }
    svg.finish("What the calls cost, by the number of concepts")
}
