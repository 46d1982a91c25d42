//! The levels that `explain` promises of steady samples are those that `run` gives, and it promises none where a sum comes round.

use crate::scratch::{SETTINGS, Scratch};

const LINES: [&str; 6] = [
    "stages = 3\nr = 64\n",
    "stages = 8\nr = 14\n",
    "stages = 2\nr = 5\n",
    "stages = 1\nr = 1\ntaps = 32767 32767\nfactor = 3\n",
    "stages = 1\nr = 2\nphases = 2\nphase_taps = 1\nprototype = 1 0\nstep = 0.5\n",
    SETTINGS,
];

// The rows of `explain` behind this heading, each as its words.
fn rows(explained: &str, heading: &str) -> Vec<Vec<String>> {
    let from = explained.lines().skip_while(|line| !line.contains(heading));
    let rows = from.skip(1).take_while(|line| !line.is_empty());
    let words = |row: &str| row.split_whitespace().map(String::from).collect();
    rows.map(words).collect()
}

fn explained(scratch: &Scratch) -> String {
    let explained = scratch.gauge("explain --settings line.settings");
    assert!(explained.status.success() && explained.stderr.is_empty());
    String::from_utf8(explained.stdout).unwrap()
}

// The last quarter of the levels that `run` gives for a steady sample: the line is filled by then.
fn settled(scratch: &Scratch, sample: &str) -> Vec<f32> {
    scratch.write("steady.txt", format!("{sample}\n").repeat(4000));
    let run = scratch.gauge("run --settings line.settings --in steady.txt");
    let levels = String::from_utf8(run.stdout).unwrap();
    let levels: Vec<f32> = levels.lines().map(|level| level.parse().unwrap()).collect();
    levels[levels.len() * 3 / 4..].to_vec()
}

#[test]
fn every_level_that_is_told_is_given() {
    let scratch = Scratch::new("steady");
    for settings in LINES {
        scratch.write("line.settings", settings);
        let told = rows(&explained(&scratch), "level, as the line gives it");
        assert!(told.len() >= 2, "{settings}");
        for row in told {
            let ends = [&row[1], &row[row.len() - 1]];
            let ends = ends.map(|end| end.parse::<f32>().unwrap());
            let levels = settled(&scratch, &row[0]);
            assert!(!levels.is_empty());
            let least = levels.iter().copied().fold(f32::INFINITY, f32::min);
            let greatest = levels.iter().copied().fold(f32::NEG_INFINITY, f32::max);
            assert_eq!([least, greatest], ends, "{settings}{row:?}");
        }
    }
}

// 16384 times 64^3 is 2^32, which comes round to 0, and half of it to -2^31.
#[test]
fn a_sum_that_comes_round_is_promised_no_level() {
    let scratch = Scratch::new("round");
    scratch.write("line.settings", LINES[0]);
    let text = explained(&scratch);
    assert_eq!(settled(&scratch, "16384")[0], 0.0);
    assert_eq!(settled(&scratch, "8192")[0], -0.25);
    assert!(!text.contains("16384") && !text.contains("0.5"), "{text}");
    let ranges = rows(&text, "least    greatest");
    for row in &ranges[..3] {
        assert_eq!(row[row.len() - 2..], ["-8192", "8191"]);
    }
    assert_eq!(ranges[3][..5], ["Values", "are", "cut", "of", "no"]);
    assert_eq!(ranges[4][..3], ["Warning:", "18", "gain"]);
}
