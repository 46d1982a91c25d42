//! What `plot` draws: axes, marks and notes.

use crate::scratch::{SETTINGS, Scratch, as_text};

fn drawn(scratch: &Scratch, samples: &[i32], options: &str) -> String {
    scratch.write("samples.txt", as_text(samples));
    let plot = scratch.gauge(&format!(
        "plot --settings line.settings --in samples.txt {options}"
    ));
    assert!(plot.status.success() && plot.stderr.is_empty(), "{plot:?}");
    String::from_utf8(plot.stdout).unwrap()
}

// The texts of a drawing that are numbers below the frame, with the places of their middles.
fn numbers_across(svg: &str) -> Vec<(f64, String)> {
    let middle = svg
        .lines()
        .filter(|line| line.contains("text-anchor=\"middle\">"));
    let text = |line: &str| Some(line.split_once('>')?.1.split_once('<')?.0.to_string());
    let place = |line: &str| line.split('"').nth(1)?.parse().ok();
    let texts = middle.filter_map(|line| Some((place(line)?, text(line)?)));
    texts
        .filter(|(_, text)| text.parse::<f64>().is_ok())
        .collect()
}

#[test]
fn samples_are_counted_in_whole_numbers_that_keep_apart() {
    let scratch = Scratch::new("across");
    scratch.write("line.settings", "stages = 1\nr = 1\n");
    for count in [2, 3, 5, 9, 1000, 123_457] {
        let svg = drawn(&scratch, &vec![7; count], "");
        let numbers = numbers_across(&svg);
        assert!(numbers.len() > 1, "{count}");
        for (_, number) in &numbers {
            assert!(number.parse::<u32>().is_ok(), "{count}: {number}");
        }
        for pair in numbers.windows(2) {
            let room = 9.0 * (pair[0].1.len() + pair[1].1.len()) as f64 / 2.0;
            assert!(pair[1].0 - pair[0].0 > room, "{count}: {pair:?}");
        }
        let (place, last) = &numbers[numbers.len() - 1];
        assert!(
            place + 4.5 * last.len() as f64 <= 960.0,
            "{count}: {last} is cut"
        );
    }
}

#[test]
fn dense_samples_are_a_band_without_stripes() {
    let scratch = Scratch::new("dense");
    scratch.write("line.settings", "stages = 1\nr = 1\n");
    let waves: Vec<i32> = (0..100_000).map(|at| at % 7 * 1000).collect();
    let svg = drawn(&scratch, &waves, "");
    assert_eq!(svg.matches("<polygon").count(), 2);
    assert_eq!(svg.matches("<polyline").count(), 0);
    assert_eq!(
        drawn(&scratch, &waves[..90], "")
            .matches("<polyline")
            .count(),
        2
    );
}

#[test]
fn an_empty_frame_says_why() {
    let scratch = Scratch::new("empty");
    scratch.write("line.settings", SETTINGS);
    assert!(drawn(&scratch, &[], "").contains(">no samples<"));
    let svg = drawn(&scratch, &[5; 9], "");
    assert!(svg.contains(">no level: the first comes with sample 40, and there are 9<"));
    let svg = drawn(&scratch, &[5; 41], "");
    assert!(svg.contains(">every level so far tells of the time before the first sample<"));
    let svg = drawn(&scratch, &[5; 4000], "--range 5000..");
    assert!(svg.contains(">no level in this range<"));
}

#[test]
fn a_rate_a_title_and_a_range_are_drawn() {
    let scratch = Scratch::new("options");
    scratch.write("line.settings", "stages = 1\nr = 1\n");
    let samples: Vec<i32> = (0..8 * 3600).collect();
    let svg = drawn(&scratch, &samples, "--rate 8 --title Weir");
    assert!(svg.contains(">Weir</text>") && svg.contains(">time, minutes<"));
    assert_eq!(numbers_across(&svg).last().unwrap().1, "60");
    let svg = drawn(&scratch, &samples, "--rate 8 --range 600..660");
    assert!(svg.contains(">line.settings</text>") && svg.contains(">time, seconds<"));
    let numbers = numbers_across(&svg);
    assert_eq!(
        (&numbers[0].1[..], &numbers[numbers.len() - 1].1[..]),
        ("600", "660")
    );
    let svg = drawn(&scratch, &samples, "--range 20..30");
    assert_eq!(svg.matches("<circle").count(), 2 * 11);
}

#[test]
fn a_bad_rate_or_range_is_told() {
    let scratch = Scratch::new("bad_options");
    let bad = [
        (
            "explain --rate 0",
            "gauge: --rate 0 is not a number of hertz above 0; ",
        ),
        (
            "plot --rate 8Hz",
            "gauge: --rate 8Hz is not a number of hertz above 0; ",
        ),
        (
            "plot --range 5",
            "gauge: --range 5 is not FROM..TO, upward; ",
        ),
        (
            "plot --range 5..5",
            "gauge: --range 5..5 is not FROM..TO, upward; ",
        ),
    ];
    for (arguments, said) in bad {
        let run = scratch.gauge(&format!("{arguments} --settings line.settings"));
        assert_eq!(run.status.code(), Some(2));
        let told = String::from_utf8(run.stderr).unwrap();
        assert!(told.starts_with(said), "{told}");
    }
}

// Four floored products of 32767 and 8192 make 32764, so this line's upper end is not 1.
#[test]
fn levels_at_the_ends_of_the_scale_are_marked() {
    let scratch = Scratch::new("ends");
    let marks = |samples: &[i32]| {
        let svg = drawn(&scratch, samples, "");
        let bars = svg.matches("height=\"6\"").count();
        assert_eq!(bars > 0, svg.contains(">at the end of the scale<"));
        bars
    };
    let pulse = |height: i32| [[0; 2000], [height; 2000], [0; 2000]].concat();
    for settings in [SETTINGS, "stages = 1\nr = 4\n"] {
        scratch.write("line.settings", settings);
        assert_eq!(marks(&pulse(20_000)), 0);
        // A half-band stage rings about the end of the scale, so there may be some.
        assert!(marks(&pulse(100_000)) > 0);
        assert!(marks(&pulse(-100_000)) > 0);
    }
    assert_eq!(marks(&pulse(100_000)), 1);
}
