//! The line at the end of a run, and its warnings.

use crate::scratch::{Scratch, as_text, told};

fn ends(scratch: &Scratch, settings: &str, samples: &[i32], said: &[&str]) {
    scratch.write("a.settings", settings);
    scratch.write("samples.txt", as_text(samples));
    let run = scratch.gauge("run --settings a.settings --in samples.txt --out levels.txt");
    assert!(run.status.success());
    let told = told(&run);
    let lines: Vec<&str> = told.lines().collect();
    assert_eq!(lines.len(), said.len(), "{told}");
    for (line, said) in lines.iter().zip(said) {
        assert!(line.starts_with(said), "{line}");
    }
}

// Point 5: what was cut is counted, behind the CIC decimator and in the FIR.
#[test]
fn a_run_ends_with_what_it_did() {
    let scratch = Scratch::new("summary");
    ends(
        &scratch,
        "stages=1\nr=1\n",
        &[8192, 32767, -32768],
        &["gauge: 3 samples, 3 levels from -1 to 0.9999695, no values cut to 16 bits"],
    );
    ends(
        &scratch,
        "stages=1\nr=1\n",
        &[8_388_607; 25],
        &[
            "gauge: 25 samples, 25 levels from 0.9999695 to 0.9999695, 25 values cut to 16 bits",
            "gauge: warning: 25 values past the ends of 16 bits, held at -32768 and 32767; samples are from 8388607 to 8388607, and --shift 8 brings them within",
        ],
    );
    ends(
        &scratch,
        "stages=1\nr=1\ntaps=32767 32767\nfactor=1\n",
        &[20000; 4],
        &[
            "gauge: 4 samples, 3 levels from 0.9999695 to 0.9999695, 3 values cut to 16 bits",
            "gauge: warning: 3 values past the ends of 16 bits",
        ],
    );
    ends(
        &scratch,
        "stages=1\nr=40\n",
        &[1; 39],
        &["gauge: 39 samples, no levels; the first comes with sample 40"],
    );
}

// Point 1: 16384 × 64^3 leaves 32 bits, and the level of a steady 16384 is 0.
#[test]
fn a_sample_outside_the_exact_range_is_warned_of() {
    let scratch = Scratch::new("range");
    ends(
        &scratch,
        "stages=3\nr=64\n",
        &[8191; 640],
        &["gauge: 640 samples, 10 levels from "],
    );
    ends(
        &scratch,
        "stages=3\nr=64\n",
        &[16384; 640],
        &[
            "gauge: 640 samples, 10 levels from ",
            "gauge: warning: 640 samples outside -8192 to 8191, the first at 1: 16384; ",
        ],
    );
}

// Point 6: what is set for nothing is warned of, by every command.
#[test]
fn settings_that_nothing_looks_at_are_warned_of() {
    let scratch = Scratch::new("unseen");
    scratch.write("a.settings", "stages=1\nr=1\nfactor=2\nstep=1.5\n");
    scratch.write("samples.txt", "5\n");
    for command in ["run", "plot", "explain"] {
        let input = if command == "explain" {
            ""
        } else {
            "--in samples.txt"
        };
        let run = scratch.gauge(&format!("{command} --settings a.settings {input}"));
        assert!(run.status.success());
        let said = "a.settings:3: warning: factor is not looked at without taps\na.settings:4: warning: step is not looked at without phases\n";
        assert!(told(&run).starts_with(said), "{}", told(&run));
    }
}
