//! Line plots as SVG, both axes from 0.

use std::fmt::Write;

/// A named line through points, from left to right; no number of a point is below 0.
pub struct Series {
    pub name: &'static str,
    pub points: Vec<(f64, f64)>,
}

pub struct Plot {
    pub title: String,
    /// what the axes show
    pub across: &'static str,
    pub up: &'static str,
    /// the distance of ticks across
    pub tick_across: f64,
    pub series: [Series; 2],
}

const WIDTH: f64 = 720.0;
const HEIGHT: f64 = 420.0;
const LEFT: f64 = 76.0;
const RIGHT: f64 = 24.0;
const TOP: f64 = 76.0;
const BOTTOM: f64 = 56.0;
/// Blue and orange: told apart by every eye, and by their lightness in grey.
const COLOURS: [&str; 2] = ["#1f5f9f", "#e08214"];
const MOST_TICKS: f64 = 8.0;

/// One axis: its numbers run from 0 to `end`, drawn from `start` over `length`, which is negative upwards.
struct Axis {
    end: f64,
    tick: f64,
    start: f64,
    length: f64,
}

impl Axis {
    /// As long as the greatest number needs, to the end of a tick.
    fn new(greatest: f64, tick: f64, start: f64, length: f64) -> Self {
        Axis { end: (greatest / tick).ceil() * tick, tick, start, length }
    }

    fn place(&self, number: f64) -> f64 {
        self.start + self.length * number / self.end
    }

    fn ticks(&self) -> impl Iterator<Item = f64> + '_ {
        (0..=(self.end / self.tick).round() as u64).map(|count| count as f64 * self.tick)
    }
}

/// The least of 1, 2, 5, 10, 20, .. that is not below this distance of ticks.
fn round_tick(least: f64) -> f64 {
    let steps = (0..).flat_map(|power| [1.0, 2.0, 5.0].map(|step| step * 10f64.powi(power)));
    steps.into_iter().find(|&step| step >= least).expect("the steps grow without end")
}

impl Plot {
    pub fn svg(&self) -> String {
        let points = self.series.iter().flat_map(|series| &series.points);
        let (x, y) = points.fold((1.0, 1.0), |most: (f64, f64), point| (most.0.max(point.0), most.1.max(point.1)));
        let across = Axis::new(x, self.tick_across, LEFT, WIDTH - LEFT - RIGHT);
        let up = Axis::new(y, round_tick(y / MOST_TICKS), HEIGHT - BOTTOM, TOP + BOTTOM - HEIGHT);
        let mut svg = format!(
            "<svg xmlns=\"http://www.w3.org/2000/svg\" viewBox=\"0 0 {WIDTH} {HEIGHT}\" width=\"{WIDTH}\" \
             height=\"{HEIGHT}\" font-family=\"sans-serif\" font-size=\"13\" fill=\"#222222\">\n\
             <rect width=\"{WIDTH}\" height=\"{HEIGHT}\" fill=\"#ffffff\"/>\n"
        );
        svg += &self.labels();
        svg += &axes(&across, &up);
        for (place, series) in self.series.iter().enumerate() {
            svg += &line(series, COLOURS[place], &across, &up);
            svg += &legend(series.name, COLOURS[place], LEFT + 110.0 * place as f64);
        }
        svg + "</svg>\n"
    }

    fn labels(&self) -> String {
        let (middle, bottom) = ((LEFT + WIDTH - RIGHT) / 2.0, HEIGHT - 14.0);
        let half = (TOP + HEIGHT - BOTTOM) / 2.0;
        format!(
            "<text x=\"{LEFT}\" y=\"28\" font-size=\"16\" font-weight=\"bold\">{}</text>\n\
             <text x=\"{middle}\" y=\"{bottom}\" text-anchor=\"middle\">{}</text>\n\
             <text transform=\"translate(20 {half}) rotate(-90)\" text-anchor=\"middle\">{}</text>\n",
            self.title, self.across, self.up
        )
    }
}

/// Both axes with their ticks; those of the upward one are lines across.
fn axes(across: &Axis, up: &Axis) -> String {
    let (left, right) = (across.place(0.0), across.place(across.end));
    let (bottom, top) = (up.place(0.0), up.place(up.end));
    let mut svg = String::new();
    for tick in up.ticks() {
        let (y, text) = (up.place(tick), up.place(tick) + 4.5);
        svg += &stroke("#dddddd", &format!("M{left:.1} {y:.1}H{right:.1}"));
        svg += &format!("<text x=\"{:.1}\" y=\"{text:.1}\" text-anchor=\"end\">{tick}</text>\n", left - 9.0);
    }
    for tick in across.ticks() {
        let x = across.place(tick);
        svg += &stroke("#222222", &format!("M{x:.1} {bottom:.1}v5"));
        svg += &format!("<text x=\"{x:.1}\" y=\"{:.1}\" text-anchor=\"middle\">{tick}</text>\n", bottom + 19.0);
    }
    svg + &stroke("#222222", &format!("M{left:.1} {top:.1}V{bottom:.1}H{right:.1}"))
}

fn stroke(colour: &str, path: &str) -> String {
    format!("<path d=\"{path}\" stroke=\"{colour}\" fill=\"none\"/>\n")
}

fn line(series: &Series, colour: &str, across: &Axis, up: &Axis) -> String {
    let places: Vec<(f64, f64)> = series.points.iter().map(|&(x, y)| (across.place(x), up.place(y))).collect();
    let path: Vec<String> = places.iter().map(|(x, y)| format!("{x:.1},{y:.1}")).collect();
    let path = path.join(" ");
    let mut svg = format!("<polyline points=\"{path}\" stroke=\"{colour}\" stroke-width=\"2\" fill=\"none\"/>\n");
    for (x, y) in places {
        svg += &dot(x, y, colour);
    }
    svg
}

fn dot(x: f64, y: f64, colour: &str) -> String {
    format!("<circle cx=\"{x:.1}\" cy=\"{y:.1}\" r=\"3.5\" fill=\"{colour}\"/>\n")
}

fn legend(name: &str, colour: &str, left: f64) -> String {
    let y = 52.0;
    let mut svg = format!("<path d=\"M{left} {y}h28\" stroke=\"{colour}\" stroke-width=\"2\"/>\n");
    svg += &dot(left + 14.0, y, colour);
    writeln!(svg, "<text x=\"{}\" y=\"{}\">{name}</text>", left + 36.0, y + 4.5).expect("a string takes all");
    svg
}
