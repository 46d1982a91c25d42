//! `design`: each figure that it prints, against `response` and against waves run through the line.

use crate::scratch::{Scratch, as_text, printed, samples, told};
use crate::tones::{STEP, decibels, heard};
use gauge::figures::{images, passband, stopband};
use gauge::line_file::LineFile;
use gauge::response::Response;

// A wish, with its passband and stopband in hertz, and what has to stand in the settings for it.
struct Wish {
    arguments: &'static str,
    rate: f64,
    pass: f64,
    stop: f64,
    ripple: f64,
    reject: f64,
    has: &'static str,
}

const WISHES: [Wish; 4] = [
    Wish {
        arguments: "--in 8 --every 30 --stop 0.01",
        rate: 8.0,
        pass: 0.004,
        stop: 0.01,
        ripple: 0.1,
        reject: 60.0,
        has: "factor = 6\n",
    },
    Wish {
        arguments: "--in 8 --every 3.7578125 --pass 0.04 --stop 0.1 --ripple 0.2 --reject 50",
        rate: 8.0,
        pass: 0.04,
        stop: 0.1,
        ripple: 0.2,
        reject: 50.0,
        has: "phases = ",
    },
    Wish {
        arguments: "--in 96000 --levels 3000 --pass 1200 --stop 1800 --reject 100",
        rate: 96_000.0,
        pass: 1200.0,
        stop: 1800.0,
        ripple: 0.1,
        reject: 100.0,
        has: "depth = 5\n",
    },
    Wish {
        arguments: "--in 1 --every 0.25 --stop 0.4 --pass 0.2",
        rate: 1.0,
        pass: 0.2,
        stop: 0.4,
        ripple: 0.1,
        reject: 60.0,
        has: "step = 0.25\n",
    },
];

fn designed(test: &str, wish: &Wish) -> (Scratch, LineFile) {
    let scratch = Scratch::new(test);
    let design = scratch.gauge(&format!("design {} --out d.settings", wish.arguments));
    assert!(design.status.success(), "{}", told(&design));
    let file = LineFile::read(scratch.place("d.settings")).unwrap();
    assert_eq!(file.rate, Some(wish.rate));
    (scratch, file)
}

#[test]
fn response_confirms_what_design_prints() {
    for (k, wish) in WISHES.iter().enumerate() {
        let (scratch, file) = designed(&format!("design-confirmed-{k}"), wish);
        let settings = String::from_utf8(scratch.read("d.settings")).unwrap();
        assert!(settings.contains(wish.has), "{settings}");
        let (pass, stop) = (wish.pass, wish.stop);
        let response = format!("response d.settings --pass {pass} --stop {stop} --points 2");
        let shown = printed(&scratch.gauge(&response));
        let confirmed: Vec<&str> = shown.lines().filter(|line| line.starts_with('#')).collect();
        assert_eq!(confirmed.len(), 2 + usize::from(file.settings.phases > 0));
        for line in confirmed {
            assert!(
                settings.contains(&format!("{line}\n")),
                "{line}\n{settings}"
            );
        }
    }
}

#[test]
fn the_wish_is_kept_and_waves_through_the_line_say_so() {
    for (k, wish) in WISHES.iter().enumerate() {
        let (_, file) = designed(&format!("design-kept-{k}"), wish);
        let response = Response::of(&file).unwrap();
        let (pass, stop) = (wish.pass / wish.rate, wish.stop / wish.rate);
        let passes = passband(&response, pass);
        assert!(passes.greatest <= wish.ripple && passes.least >= -wish.ripple);
        for part in [0.2, 0.45, 0.7, 0.9, 1.0] {
            let level = decibels(heard(&file, part * pass, part * pass).level);
            let inside = passes.least - 0.01..=passes.greatest + 0.01;
            assert!(
                inside.contains(&level),
                "{} {part}: {level}",
                wish.arguments
            );
        }
        let stops = stopband(&response, stop);
        assert!(stops.greatest <= -wish.reject, "{}", wish.arguments);
        // Beside the edge and the peak, where rounding does not come again with every wave.
        for (at, level) in [(stop, stops.edge), (stops.at, stops.greatest)] {
            let at = at * 1.000_37;
            let found = heard(&file, at, response.shows_at(at)).level;
            let wanted = response.line(at);
            let off = (found - wanted).abs();
            let what = format!("{} {at}: {found} {wanted}", wish.arguments);
            assert!(off < 0.03 * wanted + 0.3 * STEP, "{what}");
            let near = 10f64.powf(level / 20.0);
            assert!((near - wanted).abs() < 0.1 * near + STEP, "{what}");
        }
        let images = images(&response, stop);
        assert!(images.is_none_or(|level| level <= -wish.reject));
    }
}

// A wave tells the delay by how far in its turn it is at the first level.
#[test]
fn the_delay_is_the_waves_own() {
    for (k, wish) in WISHES.iter().enumerate() {
        let (scratch, file) = designed(&format!("design-delay-{k}"), wish);
        let settings = String::from_utf8(scratch.read("d.settings")).unwrap();
        let delay = settings
            .split("# delay ")
            .nth(1)
            .unwrap()
            .split(' ')
            .next()
            .unwrap();
        let delay: f64 = delay.parse().unwrap();
        let explained = printed(&scratch.gauge("explain d.settings"));
        let first = explained
            .split("first level comes with sample ")
            .nth(1)
            .unwrap();
        let first: f64 = first.split(' ').next().unwrap().parse().unwrap();
        let wave = 0.3 * wish.pass / wish.rate;
        let turns = heard(&file, wave, wave).turns;
        let told = wave * (first - 1.0 - delay * wish.rate);
        let off = told - turns;
        let off = (off - off.round()).abs() / wave;
        assert!(off < 0.01 * delay * wish.rate, "{}: {off}", wish.arguments);
    }
}

#[test]
fn a_designed_resampler_is_even() {
    let (scratch, _) = designed("design-even", &WISHES[1]);
    let explained = printed(&scratch.gauge("explain d.settings"));
    let ramp = explained.lines().find(|line| line.starts_with("Ramp: "));
    assert!(
        ramp.is_some_and(|line| line.contains("at most 0.")),
        "{ramp:?}"
    );
    assert!(!explained.contains("Warning"), "{explained}");
}

#[test]
fn a_sheet_has_the_numbers_of_the_settings() {
    let scratch = Scratch::new("design-sheet");
    let wish = WISHES[1].arguments;
    for more in ["--out d.settings", "--out s.settings --sheet d.sheet"] {
        let design = scratch.gauge(&format!("design {wish} {more}"));
        assert!(design.status.success(), "{}", told(&design));
    }
    let settings = String::from_utf8(scratch.read("s.settings")).unwrap();
    assert!(
        settings.contains("taps = d.sheet#0\n") && settings.contains("prototype = d.sheet#1\n")
    );
    scratch.write("samples.txt", as_text(&samples()));
    let levels =
        |settings: &str| printed(&scratch.gauge(&format!("run --settings {settings} samples.txt")));
    assert_eq!(levels("d.settings"), levels("s.settings"));
    assert!(levels("d.settings").lines().count() > 10);
}

// Arguments, and what is told of them.
const WRONG: [(&str, &str); 13] = [
    ("design", "--in is missing: samples a second"),
    (
        "design --in 8",
        "design wants either --every, seconds from level to level, or --levels",
    ),
    (
        "design --in 8 --every 30 --levels 2",
        "design wants either --every",
    ),
    (
        "design --in 8 --every 0",
        "--every 0 is not a number of seconds above 0",
    ),
    (
        "design --in 8 --every 30.1",
        "every 30.0996 s or 30.1016 s is",
    ),
    (
        "design --in 8 --every 30 --pass 0.02",
        "--pass 0.02 is not below --stop 0.0166667",
    ),
    (
        "design --in 8 --every 30 --stop 5",
        "--stop 5 is over half of 8 samples a second",
    ),
    (
        "design --in 8 --every 30 --pass 0.02 --stop 0.03",
        "--pass 0.02 is over half of 0.0333333 levels a second",
    ),
    (
        "design --in 8 --every 30 --pass 0.01 --stop 0.03",
        "it is at most 0.0233333",
    ),
    (
        "design --in 8 --every 30 --bits 24",
        "--bits 24 is not 2 to 16",
    ),
    (
        "design --in 8 --every 30 --reject 200",
        "--reject 200 is not 10 to 120 dB",
    ),
    (
        "design --in 8 --every 30 --stop 0.01 --pass 0.009",
        "no line found that passes up to 0.009 Hz within 0.1 dB and holds off 60 dB from 0.01 Hz on",
    ),
    (
        "design --in 8 --every 30 --stop 0.01 --pass 0.009",
        "; there is one with --pass 0.0054",
    ),
];

#[test]
fn what_cannot_be_is_told() {
    let scratch = Scratch::new("design-wrong");
    for (arguments, said) in WRONG {
        let output = scratch.gauge(arguments);
        assert_eq!(output.status.code(), Some(2), "{arguments}");
        assert!(
            told(&output).contains(said),
            "{arguments}: {}",
            told(&output)
        );
        assert!(output.stdout.is_empty(), "{arguments}");
    }
}
