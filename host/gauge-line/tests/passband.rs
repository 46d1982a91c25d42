//! The tables of depth and passband, computed from the taps; the pages and the headers say the same. Frequencies are in parts of the output rate.

use gauge_line::passband::{PASSBANDS, PASSBANDS_98, Passband, STAGE_TAPS, STAGE_TAPS_98};
use gauge_line::{hbf_tap_table, hbf_tap_table_98};
use std::f64::consts::TAU;

const GRID: f64 = 0.0005;

// A cascade: its taps, what its name says in dB, its figures, and where a user meets them.
struct Cascade {
    stages: [Vec<f64>; 5],
    held: f64,
    figures: [Passband; 5],
    pages: &'static [(&'static str, &'static str)],
    header: &'static str,
}

const PASSBAND: (&str, &str) = ("passband.rs", include_str!("../src/passband.rs"));

fn cascades() -> [Cascade; 2] {
    [
        Cascade {
            stages: stages(&hbf_tap_table(), STAGE_TAPS),
            held: -140.0,
            figures: PASSBANDS,
            pages: &[
                PASSBAND,
                ("docs/c.md", include_str!("../../../docs/c.md")),
                ("docs/rust.md", include_str!("../../../docs/rust.md")),
                ("docs/gauge.md", include_str!("../../../docs/gauge.md")),
            ],
            header: include_str!("../../../include/gauge_line.h"),
        },
        Cascade {
            stages: stages(&hbf_tap_table_98(), STAGE_TAPS_98),
            held: -98.0,
            figures: PASSBANDS_98,
            pages: &[
                PASSBAND,
                (
                    "docs/half_band.md",
                    include_str!("../../../docs/half_band.md"),
                ),
            ],
            header: include_str!("../../../include/gauge_half_band.h"),
        },
    ]
}

// The stages in the order in which the cascade runs them.
fn stages(table: &[f32], counts: [usize; 5]) -> [Vec<f64>; 5] {
    let mut end = table.len();
    counts.map(|taps| {
        let past = end;
        end -= taps;
        table[end..past].iter().copied().map(f64::from).collect()
    })
}

// One stage at a frequency in parts of its own input rate: 0.5 in the middle, tap t at the odd distance 2M - 1 - 2t on both sides.
fn stage_response(taps: &[f64], frequency: f64) -> f64 {
    let sides = taps.iter().enumerate().map(|(t, tap)| {
        let distance = 2 * taps.len() - 1 - 2 * t;
        tap * (TAU * frequency * distance as f64).cos()
    });
    0.5 + sides.sum::<f64>()
}

impl Cascade {
    // At a frequency in parts of its output rate, in dB.
    fn response(&self, depth: i32, frequency: f64) -> f64 {
        let gain: f64 = (0..depth)
            .map(|k| {
                let rate = 2f64.powi(depth - k);
                stage_response(&self.stages[k as usize], frequency / rate)
            })
            .product();
        20.0 * gain.abs().log10()
    }

    // The strongest of the input frequencies that fall on this one in the output.
    fn worst_alias(&self, depth: i32, frequency: f64) -> f64 {
        let half = 2f64.powi(depth - 1);
        (1..=half as i32)
            .flat_map(|k| [f64::from(k) - frequency, f64::from(k) + frequency])
            .filter(|input| *input <= half)
            .map(|input| self.response(depth, input))
            .fold(f64::NEG_INFINITY, f64::max)
    }

    // The strongest alias into 0 to `end`.
    fn worst_up_to(&self, depth: i32, end: f64) -> f64 {
        (0..=(end / GRID).round() as i32)
            .map(|i| self.worst_alias(depth, f64::from(i) * GRID))
            .fold(f64::NEG_INFINITY, f64::max)
    }

    // Each depth with its figures.
    fn depths(&self) -> impl Iterator<Item = (i32, Passband)> {
        (1..).zip(self.figures)
    }

    // The numbers at the end of the header's line that begins so.
    fn header_row(&self, name: &str) -> Vec<f64> {
        let front = format!("//   {name}");
        let mut rows = self
            .header
            .lines()
            .filter_map(|line| line.strip_prefix(&front));
        let words = rows.next().expect(name).split_whitespace().rev();
        let numbers = words.map_while(|word| word.parse().ok());
        let mut numbers: Vec<f64> = numbers.collect();
        numbers.reverse();
        numbers
    }
}

#[test]
fn the_tables_follow_from_the_taps() {
    for cascade in cascades() {
        let held = cascade.held;
        for (depth, figures) in cascade.depths() {
            let worst = cascade.worst_up_to(depth, 0.4);
            assert!((worst - figures.worst_alias).abs() < 0.05, "{depth}");
            let up_to = cascade.worst_up_to(depth, figures.held_to);
            assert!(up_to <= held, "{depth}");
            let past = figures.held_to + 0.001;
            assert!(cascade.worst_alias(depth, past) > held, "{depth}");
            let end = cascade.response(depth, 0.4);
            assert!((end - figures.at_end).abs() < 0.05, "{depth}");
        }
    }
}

#[test]
fn the_pages_have_the_tables() {
    for cascade in cascades() {
        for (name, page) in cascade.pages {
            let page = page.replace('−', "-");
            for (depth, figures) in cascade.depths() {
                let row = format!(
                    "| {depth} | {} | {:.1} dB | {:.3} | {:.1} dB |",
                    1 << depth,
                    figures.worst_alias,
                    figures.held_to,
                    figures.at_end
                );
                assert!(page.contains(&row), "{name}: {row}");
            }
        }
    }
}

#[test]
fn the_headers_have_the_tables() {
    for cascade in cascades() {
        let of = |figure: fn(Passband) -> f64| cascade.figures.map(figure).to_vec();
        let row = |name| cascade.header_row(name);
        assert_eq!(row("depth"), [1.0, 2.0, 3.0, 4.0, 5.0]);
        assert_eq!(row("worst alias"), of(|depth| depth.worst_alias));
        assert_eq!(row("aliases below"), of(|depth| depth.held_to));
        assert_eq!(row("level at 0.4"), of(|depth| depth.at_end));
    }
}
