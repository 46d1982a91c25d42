//! `response`, against waves run through the line: what is let through, and what comes back as another wave.

use crate::scratch::{Scratch, printed, told};
use crate::tones::{STEP, heard};
use gauge::images::Images;
use gauge::line_file::LineFile;
use gauge::response::Response;

// Sections one by one and together; steps that fall on few places between values and on all, in wrapped and in straight phase.
const LINES: [&str; 9] = [
    "stages=2\nr=5\n",
    "stages=1\nr=2\ntaps=1000 2000 20000 -4000\nfactor=5\n",
    "stages=3\nr=4\ntaps=8192 8192 8192 8192\nfactor=2\ndepth=2\n",
    "stages=1\nr=1\ndepth=5\n",
    "stages=3\nr=4\ntaps=8192 8192 8192 8192\nfactor=2\ndepth=2\nphases=2\nphase_taps=2\nprototype=1 0.5 0 0.5\nstep=1.5\n",
    "stages=1\nr=3\nphases=4\nphase_taps=2\nprototype=1 0.9 0.5 0.1 0 0.1 0.5 0.9\nstep=0.9375\n",
    "stages=1\nr=3\nphases=4\nphase_taps=2\nprototype=1 0.75 0.5 0.25 0 0.25 0.5 0.75\nstep=0.7\n",
    "stages=2\nr=3\nphases=4\nphase_taps=2\nprototype=0 0.2 0.5 0.8 1 0.8 0.5 0.2\nstep=2\nphase=straight\n",
    "stages=1\nr=3\nphases=4\nphase_taps=2\nprototype=0 0.2 0.5 0.8 1 0.8 0.5 0.2\nstep=2.7\nphase=straight\n",
];
// Frequencies, in parts of the rate of levels.
const PARTS: [f64; 4] = [0.057, 0.183, 0.291, 0.427];

fn close(what: &str, found: f64, wanted: f64) {
    let off = (found - wanted).abs();
    assert!(
        off < 4.0 * STEP + 0.003 * wanted,
        "{what}: {found} {wanted}"
    );
}

#[test]
fn a_wave_comes_out_as_strong_as_is_told() {
    for text in LINES {
        let file = LineFile::parse("f", text).unwrap();
        let response = Response::of(&file).unwrap();
        for part in PARTS {
            // More often than values come, levels have no more to tell.
            let every = response
                .samples_per_level()
                .max(response.samples_per_value());
            let wave = part / every;
            assert!((response.shows_at(wave) - wave).abs() < 1e-12, "{text}");
            let heard = heard(&file, wave, wave).level;
            close(&format!("{text}{part}"), heard, response.line(wave));
        }
    }
}

#[test]
fn the_strongest_alias_is_as_strong_as_is_told_and_no_other_is_stronger() {
    for text in LINES {
        let file = LineFile::parse("f", text).unwrap();
        let response = Response::of(&file).unwrap();
        for part in PARTS {
            let shows_at = part / response.samples_per_level();
            let alias = response.alias(shows_at);
            assert!(alias.from != shows_at && alias.from <= 0.5, "{text}");
            let found = heard(&file, alias.from, shows_at).level;
            close(&format!("{text}{part}"), found, alias.level);
            for other in others(&response, shows_at) {
                let found = heard(&file, other, shows_at).level;
                assert!(found < alias.level + 4.0 * STEP, "{text}{part} {other}");
            }
        }
    }
}

// Some faster waves that show at a frequency of the levels, as the resampler has none or its order 0.
fn others(response: &Response, shows_at: f64) -> Vec<f64> {
    let rate = 1.0 / response.samples_per_level();
    let folded = (1..4).flat_map(|k| {
        [
            f64::from(k) * rate - shows_at,
            f64::from(k) * rate + shows_at,
        ]
    });
    let shows = |wave: &f64| (response.shows_at(*wave) - shows_at).abs() < 1e-9;
    folded.filter(|wave| *wave < 0.5).filter(shows).collect()
}

#[test]
fn a_wave_that_is_too_fast_shows_where_is_told() {
    for text in LINES {
        let file = LineFile::parse("f", text).unwrap();
        let response = Response::of(&file).unwrap();
        for wave in [0.631, 0.873, 1.237].map(|part| part / response.samples_per_level()) {
            let shows_at = response.shows_at(wave);
            if wave > 0.5 || 2.0 * shows_at * response.samples_per_level() < 0.02 {
                continue;
            }
            let heard = heard(&file, wave, shows_at).level;
            close(&format!("{text}{wave}"), heard, response.line(wave));
        }
    }
}

#[test]
fn the_table_has_a_row_for_each_frequency() {
    let scratch = Scratch::new("response-table");
    scratch.write("mean.settings", "stages = 1\nr = 4\n");
    let shown = printed(&scratch.gauge("response mean.settings --points 3"));
    let wanted = "cycles\tcic\tline\tshows_at\talias\talias_from\n\
                  0\t0.000\t0.000\t0\t-300.000\t0.25\n\
                  0.0625\t-0.856\t-0.856\t0.0625\t-9.946\t0.1875\n\
                  0.125\t-3.698\t-3.698\t0.125\t-3.698\t0.125\n";
    assert_eq!(shown, wanted);
    scratch.write("rate.settings", "stages = 1\nr = 4\nrate = 8\n");
    let at_rate = printed(&scratch.gauge("response rate.settings --points 3"));
    assert_eq!(
        at_rate,
        printed(&scratch.gauge("response mean.settings --points 3 --rate 8"))
    );
    assert!(at_rate.starts_with("hertz\t") && at_rate.contains("\n0.5\t-0.856\t"));
    let fast = printed(&scratch.gauge("response rate.settings --range 3.. --points 2"));
    assert!(fast.contains("\n3\t-11.354\t-11.354\t1\t-\t-\n"), "{fast}");
}

#[test]
fn the_drawing_has_sections_line_and_aliases() {
    let scratch = Scratch::new("response-drawing");
    let response = scratch.gauge("response line.settings --svg line.svg --rate 8 --stop 0.05");
    assert!(response.status.success(), "{}", told(&response));
    let svg = String::from_utf8(scratch.read("line.svg")).unwrap();
    for name in [
        "CIC decimator",
        "FIR",
        "half-band cascade",
        "resampler",
        "line",
        "frequency, Hz",
    ] {
        assert_eq!(svg.matches(&format!(">{name}<")).count(), 2, "{name}");
    }
    for name in [
        "strongest alias",
        "line, waves that come back as slower ones",
        "stopband",
    ] {
        assert_eq!(svg.matches(&format!(">{name}<")).count(), 1, "{name}");
    }
    assert!(!svg.contains("NaN") && !svg.contains("inf"));
}

// Arguments, and what is told of them.
const WRONG: [(&str, &str); 8] = [
    ("response", "--settings is missing"),
    (
        "response one.settings --pass 0.6",
        "--pass 0.6 is not above 0 and at most 0.5 cycles a sample",
    ),
    (
        "response one.settings --rate 8 --stop 5",
        "--stop 5 is not above 0 and at most half the samples a second",
    ),
    (
        "response one.settings --points 1",
        "--points 1 is not 2 to 100000",
    ),
    (
        "response one.settings --range 0.6..0.7",
        "--range is not within 0 and half the rate of samples",
    ),
    (
        "response one.settings --svg -",
        "--svg - is where the table goes",
    ),
    (
        "response one.settings --svg one.settings",
        "--svg one.settings is the file of the settings",
    ),
    (
        "response one.settings --out one.settings",
        "--out one.settings is the file of the settings",
    ),
];

#[test]
fn what_is_wrong_is_told() {
    let scratch = Scratch::with_one("response-wrong");
    for (arguments, said) in WRONG {
        let output = scratch.gauge(arguments);
        assert_eq!(output.status.code(), Some(2), "{arguments}");
        assert!(
            told(&output).contains(said),
            "{arguments}: {}",
            told(&output)
        );
        assert!(output.stdout.is_empty(), "{arguments}");
    }
    assert_eq!(scratch.read("one.settings"), b"stages = 1\nr = 1\n");
}

// The image of order m of a wave is one of m cycles a value more, wherever that shows in the levels.
#[test]
fn the_strongest_image_is_as_strong_as_is_told() {
    let folded = |cycles: f64| (cycles - cycles.round()).abs();
    for text in LINES {
        let file = LineFile::parse("f", text).unwrap();
        let response = Response::of(&file).unwrap();
        let Some(images) = Images::of(&file) else {
            continue;
        };
        for part in PARTS {
            let wave = part
                / response
                    .samples_per_level()
                    .max(response.samples_per_value());
            let cycles = wave * response.samples_per_value();
            let heard = |order: i64| {
                let shows_at = folded((cycles + order as f64) * images.step);
                heard(&file, wave, shows_at / response.samples_per_level()).level
            };
            let others = images.orders().filter(|order| *order != 0);
            let found = others.map(heard).fold(0.0, f64::max);
            let wanted = response.strongest_image(wave).unwrap();
            close(&format!("{text}{part}"), found, wanted);
        }
    }
}
