//! A drawing of series over one axis, as SVG.

use crate::axis::{Span, Ticks, span};
use crate::trace::{Trace, joined, trace};
use std::fmt::Write;

const WIDTH: f64 = 960.0;
const RIGHT: f64 = 930.0;
const PLOT_HEIGHT: f64 = 330.0;
// Room below the frame, for the numbers and the name of the axis.
const BELOW: f64 = 64.0;
// Where the first row of names of the series stands, and how far rows are apart.
const LEGEND: f64 = 56.0;
const ROW: f64 = 22.0;
// How wide letters are at most, in the widest of the usual fonts: of a name, of a number, of the title.
const LETTER: f64 = 7.5;
const DIGIT: f64 = 9.0;
const TITLE_LETTER: f64 = 11.5;
// So few points are marked one by one.
const FEW: usize = 60;
const END_COLOUR: &str = "#d62728";
const CUT_COLOUR: &str = "#e08214";
// A text that stands on lines keeps them off by a white rim.
const CLEAR: &str = "paint-order=\"stroke\" stroke=\"white\" stroke-width=\"5\"";

/// One line of a drawing.
pub struct Series<'a> {
    /// What it is, for the legend.
    pub name: &'a str,
    /// Its colour, as SVG names it.
    pub colour: &'a str,
    /// How wide the line is.
    pub width: f64,
    /// Its points, from left to right.
    pub points: Vec<(f64, f64)>,
}

/// A stretch of the axis across where values were at an end of their scale.
#[derive(Clone, Copy, Debug, PartialEq)]
pub struct Stretch {
    /// Where it begins.
    pub from: f64,
    /// Where it ends.
    pub to: f64,
    /// Whether it was the upper end.
    pub upper: bool,
}

/// Series over one axis, with their names.
#[derive(Default)]
pub struct Drawing<'a> {
    /// What is drawn.
    pub title: &'a str,
    /// What the axis across shows, with its unit.
    pub x_name: &'a str,
    /// Whether the axis across counts, so that only whole numbers stand on it.
    pub whole: bool,
    /// Places on the axis across and the numbers that stand there, where they are not evenly apart.
    pub ticks: Vec<(f64, String)>,
    /// The part of the axis across that is drawn, where it is not all.
    pub range: Option<Span>,
    /// What the axis upward shows, with its unit.
    pub y_name: &'a str,
    /// A place on the axis across, and what happens there.
    pub mark: Option<(f64, &'a str)>,
    /// What is to be said in the middle of the frame.
    pub note: Option<String>,
    /// The lines, the lowest first.
    pub series: Vec<Series<'a>>,
    /// Where values were at an end of their scale, from left to right.
    pub ends: Vec<Stretch>,
    /// Where values were cut to 16 bits, from left to right.
    pub cuts: Vec<f64>,
}

// Where the axes stand and what they span.
struct Frame {
    x: Span,
    y: Span,
    left: f64,
    top: f64,
    rows: Ticks,
}

impl Frame {
    fn of(drawing: &Drawing, legend_rows: usize) -> Frame {
        let all = || drawing.series.iter().map(|series| &series.points[..]);
        let x = match drawing.range {
            Some(range) => range,
            None => span(all().flatten().map(|point| point.0)),
        };
        let seen = all().flat_map(|points| seen(points, x));
        let (low, high) = span(seen.map(|point| point.1));
        // A line at the edge would lie on the axis.
        let margin = 0.04 * (high - low);
        let y = (low - margin, high + margin);
        let rows = Ticks::within(y, false, |_| true);
        Frame {
            x,
            y,
            left: (48.0 + DIGIT * rows.longest() as f64).max(80.0),
            top: LEGEND + ROW * legend_rows as f64 - 2.0,
            rows,
        }
    }

    fn place(&self, (x, y): (f64, f64)) -> (f64, f64) {
        let across = (x - self.x.0) / (self.x.1 - self.x.0);
        let up = (y - self.y.0) / (self.y.1 - self.y.0);
        let right = self.left + across * (RIGHT - self.left);
        (right, self.top + (1.0 - up) * PLOT_HEIGHT)
    }

    fn columns(&self) -> usize {
        (RIGHT - self.left) as usize
    }

    fn bottom(&self) -> f64 {
        self.top + PLOT_HEIGHT
    }

    // As a rectangle of SVG.
    fn inside(&self) -> String {
        let (left, top, width) = (self.left, self.top, RIGHT - self.left);
        format!("x=\"{left}\" y=\"{top}\" width=\"{width}\" height=\"{PLOT_HEIGHT}\"")
    }
}

// The points within a span, and one beside it on each side, to which a line is drawn.
fn seen(points: &[(f64, f64)], (low, high): Span) -> &[(f64, f64)] {
    let from = points.partition_point(|point| point.0 < low);
    let to = points.partition_point(|point| point.0 <= high);
    &points[from.saturating_sub(1)..points.len().min(to + 1)]
}

// The front of a drawing so high.
fn ground(height: f64) -> String {
    format!(
        "<svg xmlns=\"http://www.w3.org/2000/svg\" width=\"{WIDTH}\" height=\"{height}\" viewBox=\"0 0 {WIDTH} {height}\" font-family=\"sans-serif\" font-size=\"14\">\n<rect width=\"{WIDTH}\" height=\"{height}\" fill=\"white\"/>\n"
    )
}

/// Drawings one below the other, as one text.
pub fn stacked(drawings: &[Drawing]) -> String {
    let frames: Vec<Frame> = drawings.iter().map(Drawing::frame).collect();
    let height = |frame: &Frame| frame.bottom() + BELOW;
    let mut svg = ground(frames.iter().map(height).sum());
    let mut down = 0.0;
    for (k, (drawing, frame)) in drawings.iter().zip(&frames).enumerate() {
        svg.push_str(&format!("<g transform=\"translate(0 {down})\">\n"));
        drawing.add_to(&mut svg, frame, &format!("frame{k}"));
        svg.push_str("</g>\n");
        down += height(frame);
    }
    svg.push_str("</svg>\n");
    svg
}

impl Drawing<'_> {
    /// The drawing as a text. It has a white ground of its own, so that it can be read on a dark page too.
    pub fn svg(&self) -> String {
        let frame = self.frame();
        let mut svg = ground(frame.bottom() + BELOW);
        self.add_to(&mut svg, &frame, "frame");
        svg.push_str("</svg>\n");
        svg
    }

    fn frame(&self) -> Frame {
        let rows = self.legend().last().map_or(1, |(_, row, ..)| row + 1);
        Frame::of(self, rows)
    }

    // All of the drawing; the place that it is cut off at has this name.
    fn add_to(&self, svg: &mut String, frame: &Frame, name: &str) {
        self.add_names(svg, frame);
        add_numbers_across(svg, frame, self);
        add_numbers_upward(svg, frame);
        self.add_lines(svg, frame, name);
        self.add_frame(svg, frame);
        add_ends(svg, frame, &self.ends);
        add_cuts(svg, frame, &self.cuts);
        if let Some((x, name)) = self.mark {
            add_mark(svg, frame, x, name);
        }
        if let Some(note) = &self.note {
            let middle = ((frame.left + RIGHT) / 2.0, frame.top + PLOT_HEIGHT / 2.0);
            let how = format!(" text-anchor=\"middle\" {CLEAR}");
            add_text(svg, middle, &how, note);
        }
        add_legend(svg, &self.legend(), frame.left);
    }

    fn add_names(&self, svg: &mut String, frame: &Frame) {
        let size = " font-size=\"17\" font-weight=\"bold\"";
        let letters = (RIGHT - frame.left) / TITLE_LETTER;
        add_text(svg, (frame.left, 26.0), size, &fitted(self.title, letters));
        let middle = (frame.left + RIGHT) / 2.0;
        let below = (middle, frame.bottom() + 46.0);
        add_text(svg, below, " text-anchor=\"middle\"", self.x_name);
        let up = frame.top + PLOT_HEIGHT / 2.0;
        let turned = format!(" text-anchor=\"middle\" transform=\"rotate(-90 20 {up:.1})\"");
        add_text(svg, (20.0, up), &turned, self.y_name);
    }

    // The series, cut off at the frame.
    fn add_lines(&self, svg: &mut String, frame: &Frame, name: &str) {
        svg.push_str(&format!(
            "<clipPath id=\"{name}\"><rect {}/></clipPath>\n<g clip-path=\"url(#{name})\">\n",
            frame.inside()
        ));
        for series in &self.series {
            add_series(svg, frame, series);
        }
        svg.push_str("</g>\n");
    }

    // The frame, and the dots of few points, which may stand on it.
    fn add_frame(&self, svg: &mut String, frame: &Frame) {
        svg.push_str(&format!(
            "<rect {} fill=\"none\" stroke=\"#999\"/>\n",
            frame.inside()
        ));
        for series in &self.series {
            add_dots(svg, frame, series);
        }
    }

    // What the legend has: how far right, in which row, colour, width and name.
    fn legend(&self) -> Vec<(f64, usize, &str, f64, &str)> {
        let lines = self.series.iter();
        let lines = lines.map(|series| (series.colour, series.width.max(3.0), series.name));
        let ends = (!self.ends.is_empty()).then_some((END_COLOUR, 5.0, "at the end of the scale"));
        let cuts = (!self.cuts.is_empty()).then_some((CUT_COLOUR, 4.0, "a value was cut"));
        let (mut right, mut row) = (0.0, 0);
        let mut legend = Vec::new();
        for (colour, width, name) in lines.chain(ends).chain(cuts) {
            let room = 60.0 + LETTER * name.chars().count() as f64;
            if right > 0.0 && right + room > RIGHT - 80.0 {
                (right, row) = (0.0, row + 1);
            }
            legend.push((right, row, colour, width, name));
            right += room;
        }
        legend
    }
}

fn add_numbers_across(svg: &mut String, frame: &Frame, drawing: &Drawing) {
    let apart = |ticks: &Ticks| (RIGHT - frame.left) / ticks.at.len().max(1) as f64;
    let fits = |ticks: &Ticks| DIGIT * (ticks.longest() + 2) as f64 <= apart(ticks);
    let ticks = Ticks::within(frame.x, drawing.whole, fits);
    let even = ticks.at.iter().map(|x| (*x, ticks.name(*x)));
    let named = match drawing.ticks.is_empty() {
        true => even.collect(),
        false => drawing.ticks.clone(),
    };
    for (x, name) in named {
        let (right, _) = frame.place((x, frame.y.0));
        add_line(svg, (right, frame.top), (right, frame.bottom()), "#ddd", "");
        // A long number at the edge is moved inward.
        let half = DIGIT * name.len() as f64 / 2.0;
        let place = (right.min(WIDTH - half), frame.bottom() + 20.0);
        add_text(svg, place, " text-anchor=\"middle\"", &name);
    }
}

fn add_numbers_upward(svg: &mut String, frame: &Frame) {
    for y in &frame.rows.at {
        let (_, down) = frame.place((frame.x.0, *y));
        let colour = if *y == 0.0 { "#aaa" } else { "#ddd" };
        add_line(svg, (frame.left, down), (RIGHT, down), colour, "");
        let place = (frame.left - 8.0, down + 5.0);
        add_text(svg, place, " text-anchor=\"end\"", &frame.rows.name(*y));
    }
}

// A broken line upward, with its name on the side that has more room, clear of what is drawn below it.
fn add_mark(svg: &mut String, frame: &Frame, x: f64, name: &str) {
    let (x, _) = frame.place((x, frame.y.0));
    let dashes = " stroke-dasharray=\"6 4\"";
    add_line(svg, (x, frame.top), (x, frame.bottom()), "#444", dashes);
    let (side, anchor) = if x < (frame.left + RIGHT) / 2.0 {
        (8.0, "start")
    } else {
        (-8.0, "end")
    };
    let place = (x + side, frame.top + PLOT_HEIGHT * 0.72);
    add_text(
        svg,
        place,
        &format!(" text-anchor=\"{anchor}\" {CLEAR}"),
        name,
    );
}

// A piece of each line and its name, one behind another.
fn add_legend(svg: &mut String, legend: &[(f64, usize, &str, f64, &str)], left: f64) {
    for (right, row, colour, width, name) in legend {
        let (x, y) = (left + right, LEGEND + ROW * *row as f64 - 8.0);
        let sample = format!(" stroke-width=\"{width}\"");
        add_line(svg, (x, y - 5.0), (x + 26.0, y - 5.0), colour, &sample);
        add_text(svg, (x + 34.0, y), "", name);
    }
}

fn add_line(svg: &mut String, from: (f64, f64), to: (f64, f64), colour: &str, more: &str) {
    let (x, y) = from;
    let path = format!("M{x:.1} {y:.1}L{:.1} {:.1}", to.0, to.1);
    svg.push_str(&format!("<path d=\"{path}\" stroke=\"{colour}\"{more}/>\n"));
}

fn add_text(svg: &mut String, (x, y): (f64, f64), how: &str, text: &str) {
    let text = text.replace('&', "&amp;").replace('<', "&lt;");
    svg.push_str(&format!(
        "<text x=\"{x:.1}\" y=\"{y:.1}\"{how}>{text}</text>\n"
    ));
}

// The front of a text, where it has more letters than there is room for.
fn fitted(text: &str, letters: f64) -> String {
    let letters = letters as usize;
    match text.chars().count() > letters {
        true => text.chars().take(letters - 1).chain(['…']).collect(),
        false => text.to_string(),
    }
}

fn add_series(svg: &mut String, frame: &Frame, series: &Series) {
    let points = seen(&series.points, frame.x);
    let places: Vec<(f64, f64)> = points.iter().map(|point| frame.place(*point)).collect();
    let (shape, fill, places) = match trace(&places, frame.columns()) {
        Trace::Line(places) => ("polyline", "none", places),
        Trace::Band(places) => ("polygon", series.colour, places),
    };
    let mut path = String::new();
    for (x, y) in &places {
        write!(path, " {x:.1},{y:.1}").expect("a text grows");
    }
    svg.push_str(&format!(
        "<{shape} fill=\"{fill}\" stroke=\"{}\" stroke-width=\"{}\" stroke-linejoin=\"round\" points=\"{}\"/>\n",
        series.colour,
        series.width,
        path.trim_start()
    ));
}

// A dot for each point within the frame, where they are few.
fn add_dots(svg: &mut String, frame: &Frame, series: &Series) {
    let points = seen(&series.points, frame.x).iter();
    let inside =
        |point: &&(f64, f64)| point.1.is_finite() && point.0 >= frame.x.0 && point.0 <= frame.x.1;
    let points: Vec<&(f64, f64)> = points.filter(inside).collect();
    if points.len() > FEW {
        return;
    }
    for point in points {
        let (x, y) = frame.place(*point);
        svg.push_str(&format!(
            "<circle cx=\"{x:.1}\" cy=\"{y:.1}\" r=\"{}\" fill=\"{}\"/>\n",
            1.5 + series.width,
            series.colour
        ));
    }
}

// Bars at the upper and the lower edge of the frame.
fn add_ends(svg: &mut String, frame: &Frame, ends: &[Stretch]) {
    for (upper, edge) in [(true, frame.top), (false, frame.bottom() - 6.0)] {
        let ends = ends.iter().filter(|end| end.upper == upper);
        let stretches = ends.map(|end| (end.from, end.to));
        add_bars(svg, frame, stretches, (edge, 6.0), END_COLOUR);
    }
}

// Bars below the frame.
fn add_cuts(svg: &mut String, frame: &Frame, cuts: &[f64]) {
    let stretches = cuts.iter().map(|at| (*at, *at));
    add_bars(
        svg,
        frame,
        stretches,
        (frame.bottom() + 1.0, 4.0),
        CUT_COLOUR,
    );
}

// Bars over stretches of the axis across, so far down and so high, wide enough to be seen.
fn add_bars(
    svg: &mut String,
    frame: &Frame,
    stretches: impl Iterator<Item = Span>,
    (down, height): (f64, f64),
    colour: &str,
) {
    let inside = |x: f64| frame.place((x, 0.0)).0.clamp(frame.left, RIGHT);
    let bars: Vec<Span> = stretches
        .filter(|(from, to)| *to >= frame.x.0 && *from <= frame.x.1)
        .map(|(from, to)| (inside(from) - 1.0, inside(to) + 1.0))
        .collect();
    for (from, to) in joined(&bars) {
        svg.push_str(&format!(
            "<rect x=\"{from:.1}\" y=\"{down:.1}\" width=\"{:.1}\" height=\"{height}\" fill=\"{colour}\"/>\n",
            to - from
        ));
    }
}

#[cfg(test)]
mod tests {
    use super::*;

    fn series(name: &str, points: Vec<(f64, f64)>) -> Series<'_> {
        Series {
            name,
            colour: "black",
            width: 1.0,
            points,
        }
    }

    #[test]
    fn nothing_and_one_point_are_drawn_too() {
        for points in [vec![], vec![(3.0, 4.0)], vec![(0.0, f64::NAN)]] {
            let finite = points.iter().filter(|point| point.1.is_finite()).count();
            let drawing = Drawing {
                title: "a & b",
                mark: Some((3.0, "here")),
                series: vec![series("<a>", points)],
                ..Drawing::default()
            };
            let svg = drawing.svg();
            assert!(svg.contains("a &amp; b") && svg.contains("&lt;a>"));
            assert!(!svg.contains("NaN"));
            assert_eq!(svg.matches("<circle").count(), finite);
        }
    }

    #[test]
    fn a_range_shows_its_points_and_one_on_each_side() {
        let points: Vec<(f64, f64)> = (0..10).map(|at| (f64::from(at), 1.0)).collect();
        assert_eq!(seen(&points, (3.5, 5.0)), &points[3..7]);
        assert_eq!(seen(&points, (-9.0, 99.0)), points);
        assert_eq!(seen(&points, (20.0, 30.0)), &points[9..]);
        assert_eq!(seen(&[], (0.0, 1.0)), []);
    }

    #[test]
    fn a_legend_that_is_too_long_goes_on_in_a_row_of_its_own() {
        let name = "a name of some forty letters, give or take";
        let drawing = Drawing {
            series: (0..3).map(|_| series(name, vec![])).collect(),
            ..Drawing::default()
        };
        let rows: Vec<usize> = drawing.legend().iter().map(|entry| entry.1).collect();
        assert_eq!(rows, [0, 0, 1]);
        let height = |drawing: &Drawing| Frame::of(drawing, 2).bottom() + BELOW;
        assert!(
            drawing
                .svg()
                .contains(&format!("height=\"{}\"", height(&drawing)))
        );
    }

    #[test]
    fn a_long_title_is_cut_and_a_long_number_stays_inside() {
        let drawing = Drawing {
            title: &"x".repeat(400),
            series: vec![series("a", vec![(0.0, 0.0), (2_000_000_000.0, 1.0)])],
            ..Drawing::default()
        };
        let svg = drawing.svg();
        assert!(svg.contains("x…</text>") && !svg.contains(&"x".repeat(90)));
        // Ten digits about its middle.
        assert!(svg.contains("<text x=\"915.0\" y=\"426.0\" text-anchor=\"middle\">2000000000<"));
    }

    #[test]
    fn ends_of_the_scale_are_bars_at_the_edges() {
        let stretch = |from: f64, upper| Stretch {
            from,
            to: from + 1.0,
            upper,
        };
        let drawing = Drawing {
            series: vec![series("a", vec![(0.0, 0.0), (100.0, 1.0)])],
            ends: vec![
                stretch(10.0, true),
                stretch(20.0, false),
                stretch(21.0, false),
            ],
            ..Drawing::default()
        };
        let svg = drawing.svg();
        assert_eq!(svg.matches("height=\"6\"").count(), 2);
        assert!(svg.contains("at the end of the scale") && !svg.contains("a value was cut"));
    }

    #[test]
    fn drawings_stand_below_each_other_with_frames_of_their_own() {
        let drawing = |title| Drawing {
            title,
            ticks: vec![(0.0, "here".to_string())],
            series: vec![series("a", vec![(0.0, 0.0), (1.0, 1.0)])],
            ..Drawing::default()
        };
        let svg = stacked(&[drawing("one"), drawing("two")]);
        assert_eq!(svg.matches("<svg").count(), 1);
        assert_eq!(svg.matches(">here<").count(), 2);
        let height = drawing("one").frame().bottom() + BELOW;
        assert!(svg.contains(&format!("translate(0 {height})")));
        for name in ["frame0", "frame1"] {
            assert!(svg.contains(&format!("<clipPath id=\"{name}\">")));
            assert!(svg.contains(&format!("url(#{name})")));
        }
    }

    #[test]
    fn cut_values_are_bars_below_the_frame() {
        let drawing = Drawing {
            series: vec![series("a", vec![(0.0, 0.0), (100.0, 1.0)])],
            cuts: vec![10.0, 10.1, 50.0, 101.0],
            ..Drawing::default()
        };
        let svg = drawing.svg();
        assert_eq!(svg.matches("height=\"4\"").count(), 2);
        assert!(svg.contains("a value was cut"));
    }
}
