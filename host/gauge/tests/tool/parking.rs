//! Parked lines: a run in two parts makes what one run makes, `inspect` names every field, and a sheet that is refused is told at its field.

use crate::scratch::{SETTINGS, Scratch, as_text, printed, samples, told};

// The first part of the recording and the rest of it, and the line parked between them.
fn parked_after(test: &str, first: usize) -> Scratch {
    let scratch = Scratch::new(test);
    let samples = samples();
    scratch.write("all.txt", as_text(&samples));
    scratch.write("first.txt", as_text(&samples[..first]));
    scratch.write("rest.txt", as_text(&samples[first..]));
    let run =
        scratch.gauge("run --settings line.settings first.txt --park line.parked --out first");
    assert!(run.status.success(), "{}", told(&run));
    scratch
}

// Rows of CSV without the header, as moment and level.
fn rows(text: &str) -> Vec<(f64, String)> {
    let row = |line: &str| {
        let (moment, level) = line.split_once(',').unwrap();
        (moment.parse().unwrap(), level.to_string())
    };
    text.lines().skip(1).map(row).collect()
}

#[test]
fn a_run_in_two_parts_makes_what_one_run_makes() {
    for first in [0, 1, 5, 100, 333, 899, 900] {
        let scratch = parked_after("park-parts", first);
        let all = scratch.gauge("run --settings line.settings all.txt");
        let rest = scratch.gauge("run --resume line.parked rest.txt");
        assert!(rest.status.success(), "{}", told(&rest));
        let before = String::from_utf8(scratch.read("first")).unwrap();
        assert_eq!(before + &printed(&rest), printed(&all), "{first} samples");
    }
}

#[test]
fn moments_go_on() {
    let settings = [
        SETTINGS.to_string(),
        "stages = 2\nr = 3\n".to_string(),
        "stages = 1\nr = 2\ndepth = 3\n".to_string(),
        SETTINGS.replace("step = 0.75", "step = 2.5"),
    ];
    for (settings, first) in settings.iter().zip([97, 100, 41, 255]) {
        let scratch = parked_after("park-moments", first);
        scratch.write("line.settings", settings);
        let run = |arguments: &str| {
            let run = scratch.gauge(&format!("run --out-format csv {arguments}"));
            assert!(run.status.success(), "{}", told(&run));
            rows(&printed(&run))
        };
        let all = run("--settings line.settings all.txt");
        let before = run("--settings line.settings first.txt --park line.parked");
        let rest = run("--resume line.parked rest.txt");
        assert_eq!(before, all[..before.len()]);
        assert_eq!(rest.len(), all.len() - before.len());
        for ((moment, level), (wanted, same)) in rest.iter().zip(&all[before.len()..]) {
            assert!((moment + first as f64 - wanted).abs() < 1e-5);
            assert_eq!(level, same);
        }
    }
}

#[test]
fn a_parked_line_may_take_the_place_of_the_one_it_was() {
    let scratch = parked_after("park-again", 450);
    scratch.write("one.txt", as_text(&samples()[450..451]));
    scratch.write("more.txt", as_text(&samples()[451..]));
    let run = scratch.gauge("run --resume line.parked one.txt --park line.parked --out one");
    assert!(run.status.success(), "{}", told(&run));
    let run = scratch.gauge("run --resume line.parked more.txt --park end.parked --out more");
    assert!(run.status.success(), "{}", told(&run));
    scratch.gauge("run --settings line.settings all.txt --park all.parked --out all");
    assert_eq!(scratch.read("end.parked"), scratch.read("all.parked"));
    let parts = ["first", "one", "more"].map(|name| scratch.read(name));
    assert_eq!(parts.concat(), scratch.read("all"));
}

#[test]
fn values_cut_before_are_not_of_this_run() {
    let scratch = Scratch::with_one("park-cuts");
    scratch.write("loud.txt", "40000\n-40000\n");
    scratch.write("quiet.txt", "1\n");
    let loud = scratch.gauge("run --settings one.settings loud.txt --park a.parked");
    assert!(told(&loud).contains(", 2 values cut to 16 bits"));
    let quiet = scratch.gauge("run --resume a.parked quiet.txt");
    assert!(told(&quiet).contains(", no values cut to 16 bits"));
    let fields = printed(&scratch.gauge("inspect a.parked"));
    assert!(fields.contains("cut values             2\n"), "{fields}");
}

// The places of all fields, and the bytes from one to the next.
#[test]
fn every_byte_of_a_sheet_has_a_field() {
    let scratch = parked_after("park-inspect", 333);
    let bytes = scratch.read("line.parked").len();
    let shown = printed(&scratch.gauge("inspect line.parked"));
    let mut lines = shown.lines();
    let title = format!("a parked line: 7 entries in {bytes} bytes");
    assert_eq!(lines.next(), Some(&title[..]));
    let mut next = 58;
    let mut last = 0;
    for line in lines {
        let Ok(at) = line
            .trim_start()
            .split(' ')
            .next()
            .unwrap()
            .parse::<usize>()
        else {
            continue;
        };
        assert!(at == 58 || (last + 2..=last + 32).contains(&at), "{line}");
        assert!(at >= next);
        (last, next) = (at, at + 2);
    }
    assert!(last < bytes);
    for name in [
        "integrator 0 to 2",
        "comb 0 to 2",
        "tap 0 to 3",
        "wait",
        "mu",
    ] {
        assert!(shown.contains(&format!("  {name} ")), "{name}\n{shown}");
    }
}

#[test]
fn what_is_wrong_is_told_at_its_field() {
    let scratch = parked_after("park-faults", 333);
    let sheet = scratch.read("line.parked");
    let one = Scratch::with_one("park-faults-off");
    one.write("in.txt", "1\n");
    one.gauge("run --settings one.settings in.txt --park off.parked");
    let off = one.read("off.parked");
    let cic = 58 + 24;
    let (delay, half_band) = (cic + 26 + 8, cic + 26 + 8 + 10);
    let resampler = half_band + 124 + 16;
    for (sheet, at, byte, said) in [
        (&sheet, 0, 33, "refusal 16: 33 entries, at most 32"),
        (
            &sheet,
            2,
            57,
            "refusal 17: entry 0 at 57 begins inside the directory (0 to 58)",
        ),
        (
            &sheet,
            0,
            6,
            "refusal 21, Parked: 6 entries, a parked line has 7",
        ),
        (
            &sheet,
            58,
            4,
            "refusal 21, Parked: entry 1, CIC, has 26 bytes, not 34 as its settings make it",
        ),
        (
            &sheet,
            6,
            23,
            "refusal 21, Parked: entry 0, settings, has 23 bytes, not 24",
        ),
        (
            &sheet,
            60,
            0,
            "refusal 15, State: r: refusal 2, Factor: 1 to 4096",
        ),
        (
            &sheet,
            cic,
            4,
            "refusal 15, State: sample counter 4 is not below r = 4",
        ),
        (
            &sheet,
            delay,
            9,
            "refusal 15, State: FIR wait 9 is not 1 to 4",
        ),
        (
            &sheet,
            half_band,
            2,
            "refusal 15, State: half-band stage 0 holds 2 values, at most 1",
        ),
        (
            &sheet,
            72,
            2,
            "refusal 15, State: phase 2 is not 0 for wrapped or 1 for straight",
        ),
        (&sheet, resampler + 3, 255, "refusal 15, State: mu "),
        (
            &off,
            64,
            1,
            "refusal 15, State: the FIR is off, and its factor is not 0",
        ),
        (
            &off,
            72,
            1,
            "refusal 15, State: the resampler is off, and its phase is not 0",
        ),
        (
            &off,
            77,
            128,
            "refusal 15, State: the resampler is off, and its step is not 0",
        ),
    ] {
        let mut bytes = sheet.clone();
        bytes[at] = byte;
        scratch.write("bad.parked", &bytes);
        let inspected = scratch.gauge("inspect bad.parked");
        let resumed = scratch.gauge("run --resume bad.parked rest.txt");
        assert_eq!(inspected.status.code(), Some(2), "{said}");
        assert!(
            told(&inspected).starts_with(&format!("bad.parked: {said}")),
            "{}",
            told(&inspected)
        );
        assert_eq!(told(&resumed), told(&inspected));
        assert!(inspected.stdout.is_empty() && resumed.stdout.is_empty());
    }
    let mut bytes = sheet.clone();
    bytes[half_band + 2..half_band + 6].copy_from_slice(&[1, 0, 192, 127]);
    scratch.write("bad.parked", &bytes);
    let said = format!(
        "bad.parked: refusal 15, State: the float at byte {}, half-band delays, is 7fc00001; a NaN is 7fc00000\n",
        half_band + 2
    );
    assert_eq!(told(&scratch.gauge("inspect bad.parked")), said);
}

#[test]
fn options_that_do_not_go_together_are_told() {
    let scratch = parked_after("park-options", 10);
    let before = scratch.read("line.parked");
    for (arguments, said) in [
        (
            "run --resume line.parked --settings line.settings rest.txt",
            "gauge: --settings beside --resume; a parked line has its own settings; ",
        ),
        (
            "run --settings line.settings rest.txt --park x --out x",
            "gauge: --park x is where the levels go; ",
        ),
        (
            "run --settings line.settings rest.txt --park -",
            "gauge: --park - is where the levels go; ",
        ),
        (
            "run --settings line.settings rest.txt --park rest.txt",
            "gauge: --park rest.txt is the file of --in, rest.txt; it stays as it is",
        ),
        (
            "run --resume line.parked rest.txt --out line.parked",
            "gauge: --out line.parked is the file of --resume, line.parked; it stays as it is",
        ),
        ("run --resume none.parked", "none.parked: No such file"),
        ("inspect", "gauge: --in is missing"),
        ("inspect smooth.taps", "smooth.taps: refusal 16: "),
        (
            "plot --resume line.parked",
            "gauge: no option --resume here",
        ),
    ] {
        let run = scratch.gauge(arguments);
        assert_eq!(run.status.code(), Some(2), "{arguments}");
        assert!(told(&run).starts_with(said), "{arguments}: {}", told(&run));
    }
    assert_eq!(scratch.read("line.parked"), before);
    assert!(!scratch.place("x").exists());
}

/// Any bytes as a parked line: no panic, an answer or one line.
#[test]
fn damaged_sheets_are_answered() {
    let scratch = parked_after("park-damage", 333);
    let whole = scratch.read("line.parked");
    let mut seed = 3_u64;
    for turn in 0..80 {
        let mut bytes = whole.clone();
        for _ in 0..1 + turn % 3 {
            seed = seed.wrapping_mul(6_364_136_223_846_793_005).wrapping_add(1);
            let at = (seed >> 33) as usize % bytes.len();
            bytes[at] = (seed >> 56) as u8;
        }
        if turn % 8 == 0 {
            bytes.truncate((seed >> 40) as usize % bytes.len());
        }
        scratch.write("any.parked", &bytes);
        let run = scratch.gauge("inspect any.parked");
        let lines = told(&run).lines().count();
        assert!(matches!(
            (run.status.code(), lines),
            (Some(0), 0) | (Some(2), 1)
        ));
    }
}
