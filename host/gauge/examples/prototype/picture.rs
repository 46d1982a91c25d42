//! A picture of a prototype h in natural order, and of the same numbers as the resampler reads them, for P = 4 and T = 3.

use gauge::lay::laid;
use std::fmt::Write;

const PHASES: usize = 4;
const TAPS: usize = 3;
const PLACES: usize = PHASES * TAPS;
// h in hundredths: a lowpass with its middle at P × T / 2. The number behind the end, which stands for no tap, is 0.
const H: [i16; PLACES] = [0, -8, 0, 15, 48, 84, 100, 84, 48, 15, 0, -8];

const WIDTH: usize = 960;
const HEIGHT: usize = 450;
const LEFT: usize = 150;
const APART: usize = 60;
// The lines on which h and the laid numbers stand.
const NATURAL: usize = 180;
const LAID: usize = 350;
// Colours of the taps, and of what no tap reads.
const COLOURS: [&str; TAPS] = ["#005a9c", "#c4570d", "#2a7d3f"];
const UNREAD: &str = "#999";

/// The picture, as SVG.
pub fn picture() -> String {
    let mut svg = format!(
        "<svg xmlns=\"http://www.w3.org/2000/svg\" width=\"{WIDTH}\" height=\"{HEIGHT}\" viewBox=\"0 0 {WIDTH} {HEIGHT}\" font-family=\"sans-serif\" font-size=\"14\" text-anchor=\"middle\">\n<rect width=\"{WIDTH}\" height=\"{HEIGHT}\" fill=\"white\"/>\n"
    );
    let bold = " text-anchor=\"start\" font-size=\"17\" font-weight=\"bold\"";
    let title = "A prototype h in natural order, and laid as the resampler reads it: P = 4, T = 3";
    add_text(&mut svg, (20, 30), bold, title);
    add_natural(&mut svg);
    add_laid(&mut svg);
    add_taps(&mut svg);
    svg.push_str("</svg>\n");
    svg
}

// h[0] to h[P × T], each in the colour of the tap that reads it.
fn add_natural(svg: &mut String) {
    add_name(svg, NATURAL, "h, natural order");
    for at in 0..=PLACES {
        let colour = at.checked_sub(1).map_or(UNREAD, |at| COLOURS[at / PHASES]);
        let height = H.get(at).copied().unwrap_or(0);
        add_stem(svg, (LEFT + APART * at, NATURAL), height, colour);
        add_text(
            svg,
            (LEFT + APART * at, NATURAL + 28),
            "",
            &format!("h[{at}]"),
        );
    }
    let small = " font-size=\"12\" fill=\"#555\"";
    add_text(svg, (LEFT, NATURAL + 46), small, "never read");
    let end = LEFT + APART * PLACES;
    add_text(svg, (end, NATURAL + 46), small, "0 past the end");
}

// The numbers by place, as `laid` gives them: it is asked where each number of h goes.
fn add_laid(svg: &mut String) {
    let numbers: Vec<f32> = (0..=PLACES as u16).map(f32::from).collect();
    let places = laid(&numbers, PHASES, TAPS);
    add_name(svg, LAID, "laid");
    for (at, from) in places.into_iter().map(|from| from as usize).enumerate() {
        let x = LEFT + APART * at;
        let height = H.get(from).copied().unwrap_or(0);
        add_stem(svg, (x, LAID), height, COLOURS[at / PHASES]);
        add_text(svg, (x, LAID + 28), "", &format!("h[{from}]"));
        let phase = format!("p = {}", at % PHASES);
        add_text(svg, (x, LAID + 48), " fill=\"#555\"", &phase);
    }
    add_name(svg, LAID + 43, "phase");
}

// A line below the phases of each tap, with its formula.
fn add_taps(svg: &mut String) {
    let down = LAID + 62;
    for (t, colour) in COLOURS.iter().enumerate() {
        let from = LEFT + APART * PHASES * t - 20;
        let to = from + APART * (PHASES - 1) + 40;
        writeln!(
            svg,
            "<path d=\"M{from} {down}H{to}\" stroke=\"{colour}\" stroke-width=\"3\"/>"
        )
        .expect("a text grows");
        let formula = format!("t = {t}: h[{} - p] at {} + p", PHASES * (t + 1), PHASES * t);
        add_text(svg, ((from + to) / 2, down + 22), "", &formula);
    }
}

fn add_name(svg: &mut String, line: usize, name: &str) {
    add_text(svg, (20, line + 5), " text-anchor=\"start\"", name);
}

// A number as a stem from its line, with a dot at the end; a number of 0 is a ring.
fn add_stem(svg: &mut String, (x, line): (usize, usize), height: i16, colour: &str) {
    let end = line as i32 - i32::from(height);
    let fill = if height == 0 { "white" } else { colour };
    writeln!(
        svg,
        "<path d=\"M{x} {line}V{end}\" stroke=\"{colour}\" stroke-width=\"4\"/>\n<circle cx=\"{x}\" cy=\"{end}\" r=\"5\" fill=\"{fill}\" stroke=\"{colour}\" stroke-width=\"2\"/>"
    )
    .expect("a text grows");
}

fn add_text(svg: &mut String, (x, y): (usize, usize), how: &str, text: &str) {
    writeln!(svg, "<text x=\"{x}\" y=\"{y}\"{how}>{text}</text>").expect("a text grows");
}
