//! What is wrong is told in one line with status 2, and no file is left behind.

use crate::scratch::{Scratch, as_text, samples, told};

const RUN: &str = "run --settings bad.settings --in samples.txt --out levels.txt";

// Settings, and the front of the line that is told.
const SETTINGS: [(&str, &str); 35] = [
    (
        "stages = 0\nr = 2\n",
        "bad.settings:1: stages = 0: refusal 1, Stages: 1 to 8\n",
    ),
    (
        "stages = 2\nr = 4097\n",
        "bad.settings:2: r = 4097: refusal 2, Factor: 1 to 4096\n",
    ),
    (
        "r = 15\nstages = 8\n",
        "bad.settings:1: r = 15: refusal 3, GainBits: 15^8 = 2562890625 is over 2^31\n",
    ),
    (
        "stages=1\nr=1\nfactor=4097\ntaps=1\n",
        "bad.settings:3: factor = 4097: refusal 5, FirFactor: 1 to 4096\n",
    ),
    (
        "stages=1\nr=1\nfactor=1\ntaps=many.taps\n",
        "bad.settings:4: taps = many.taps: refusal 6, Taps: 129 given, at most 128\n",
    ),
    (
        "stages=1\nr=1\ndepth=7\n",
        "bad.settings:3: depth = 7: refusal 11, Depth: at most 5\n",
    ),
    (
        "stages=1\nr=1\nphases=65\n",
        "bad.settings:3: phases = 65: refusal 12, Phases: 2 to 64, or 0 for no resampler\n",
    ),
    (
        "stages=1\nr=1\nphases=2\nphase_taps=0\n",
        "bad.settings:4: phase_taps = 0: refusal 12, Phases: 1 to 16\n",
    ),
    (
        "stages=1\nr=1\nphases=2\nphase_taps=1\n",
        "bad.settings:4: no prototype: refusal 13, Prototype: 0 given, 2 × 1 = 2 wanted\n",
    ),
    (
        "stages=1\nr=1\nphases=2\nphase_taps=2\nprototype=1 2 3\n",
        "bad.settings:5: prototype = 1 2 3: refusal 13, Prototype: 3 given, 2 × 2 = 4 wanted\n",
    ),
    (
        "stages=1\nr=1\nphases=2\nphase_taps=1\nprototype=1 0\nstep=65\n",
        "bad.settings:6: step = 65: refusal 14, Step: 1/64 to 64\n",
    ),
    (
        "# none\n\n",
        "bad.settings:2: no stages: refusal 1, Stages: 1 to 8\n",
    ),
    (
        "stages = one\n",
        "bad.settings:1: stages = one: not a whole number; 1 to 8\n",
    ),
    (
        "stages =\n",
        "bad.settings:1: stages = : no value; 1 to 8\n",
    ),
    (
        "r = 18446744073709551616\n",
        "bad.settings:1: r = 18446744073709551616: over 2^64; 1 to 4096\n",
    ),
    (
        "depth = \u{2212}1\n",
        "bad.settings:1: depth = \u{2212}1: not a whole number (it has a Unicode minus, U+2212); at most 5\n",
    ),
    (
        "r =\u{a0}4\n",
        "bad.settings:1: r = \u{a0}4: not a whole number (it has a no-break space, U+00A0); 1 to 4096\n",
    ),
    (
        "stages = 1\n\u{feff}r = 4\n",
        "bad.settings:2: no setting \u{feff}r (it has a byte order mark, U+FEFF)",
    ),
    (
        "stages 1\n",
        "bad.settings:1: stages 1 is not name = value\n",
    ),
    (
        "stage = 1\n",
        "bad.settings:1: no setting stage; did you mean stages?; they are stages, r, ",
    ),
    (
        "r = 1\n#\nr = 1\n",
        "bad.settings:3: r is set on line 1 too\n",
    ),
    (
        "taps = 1 2x\n",
        "bad.settings:1: taps = 1 2x: 2x is not a whole number of -32768 to 32767\n",
    ),
    (
        "taps = .5\n",
        "bad.settings:1: taps = .5: .5 is not a whole number of -32768 to 32767\n",
    ),
    (
        "taps = 1\u{a0}2\n",
        "bad.settings:1: taps = 1\u{a0}2: 1\u{a0}2 is not a whole number of -32768 to 32767 (it has a no-break space, U+00A0)\n",
    ),
    (
        "taps = \"x\"\n",
        "bad.settings:1: taps = \"x\": neither numbers nor the name of a file (it has quotes, U+0022); ",
    ),
    (
        "taps = [1, 2]\n",
        "bad.settings:1: taps = [1, 2]: neither numbers nor the name of a file (it has brackets, U+005B); ",
    ),
    (
        "prototype = \u{2212}.5 1\n",
        "bad.settings:1: prototype = \u{2212}.5 1: neither numbers nor the name of a file (it has a Unicode minus, U+2212); ",
    ),
    (
        "taps =\n",
        "bad.settings:1: taps = : no numbers; a line without taps has no such entry\n",
    ),
    (
        "prototype = # none\n",
        "bad.settings:1: prototype = : no numbers; a line without prototype has no such entry\n",
    ),
    (
        "prototype = natural\n",
        "bad.settings:1: prototype = natural: no numbers; a line without prototype has no such entry\n",
    ),
    (
        "taps = empty.taps\n",
        "empty.taps: no numbers; a line without taps does not name it\n",
    ),
    (
        "taps = none.taps\n",
        "bad.settings:1: taps = none.taps: No such file",
    ),
    (
        "taps = /dev/zero\n",
        "bad.settings:1: taps = /dev/zero: over 1048576 bytes\n",
    ),
    (
        "taps = wide.taps\n",
        "bad.settings:1: taps = wide.taps: is text in UTF-16; it must be saved as UTF-8\n",
    ),
    (
        "taps = bad.taps\n",
        "bad.taps:2: 40000 is not a whole number of -32768 to 32767\n",
    ),
];

// Arguments, and the front of the line that is told.
const ARGUMENTS: [(&str, &str); 20] = [
    ("", "gauge: no command; "),
    ("walk", "gauge: no command walk; gauge --help"),
    (
        "explian",
        "gauge: no command explian; did you mean explain?; ",
    ),
    ("run", "gauge: --settings is missing; "),
    ("run --settings", "gauge: --settings without a value; "),
    (
        "run --settings line.settings a b",
        "gauge: --in is given twice; ",
    ),
    (
        "run --setings line.settings",
        "gauge: no option --setings here; did you mean --settings?; ",
    ),
    (
        "run --settings line.settings --piece 0",
        "gauge: --piece 0 is not 1 to 16777216; ",
    ),
    (
        "run --settings=line.settings --piece=",
        "gauge: --piece  is not 1 to 16777216; ",
    ),
    (
        "run --settings line.settings --format txt",
        "gauge: samples are text, raw, raw16, csv, wav, not txt; did you mean text?; ",
    ),
    (
        "run --settings line.settings --out-format wav",
        "gauge: levels are text, raw, csv, not wav; ",
    ),
    (
        "run --settings line.settings --rate 0",
        "gauge: --rate 0 is not a number of hertz above 0; ",
    ),
    (
        "run --settings line.settings --shift 32",
        "gauge: --shift 32 is not 0 to 31; ",
    ),
    (
        "run --settings none.settings",
        "none.settings: No such file",
    ),
    ("run --settings .", ".: Is a directory"),
    (
        "run --settings line.settings --in none.txt",
        "none.txt: No such file",
    ),
    ("run --settings line.settings --in .", ".: Is a directory"),
    (
        "run --settings line.settings --out none/levels.txt",
        "none/levels.txt: No such file",
    ),
    (
        "explain --settings line.settings --in samples.txt",
        "gauge: no option --in here; ",
    ),
    (
        "plot --settings line.settings --in none.txt",
        "none.txt: No such file",
    ),
];

// Runs the tool, which must tell one line with this front, print nothing and leave every file as it was.
fn faulty(scratch: &Scratch, arguments: &str, said: &str) {
    let names = scratch.names();
    let run = scratch.gauge(arguments);
    let told = told(&run);
    assert_eq!(run.status.code(), Some(2), "{arguments}: {told}");
    assert!(told.starts_with(said), "{arguments}: {told}");
    assert_eq!(told.matches('\n').count(), 1, "{told}");
    assert!(run.stdout.is_empty(), "{arguments}");
    assert_eq!(scratch.names(), names, "{arguments}");
}

#[test]
fn each_bad_setting_is_told_at_its_line() {
    let scratch = Scratch::new("settings");
    scratch.write("samples.txt", as_text(&samples()));
    scratch.write("many.taps", "1 ".repeat(129));
    scratch.write("bad.taps", "1\n40000\n");
    scratch.write("empty.taps", "# none\n");
    scratch.write("wide.taps", b"\xff\xfe1\0");
    for (settings, said) in SETTINGS {
        scratch.write("bad.settings", settings);
        faulty(&scratch, RUN, said);
        faulty(&scratch, "explain --settings bad.settings", said);
    }
}

#[test]
fn each_bad_argument_is_told() {
    let scratch = Scratch::new("arguments");
    for (arguments, said) in ARGUMENTS {
        faulty(&scratch, arguments, said);
    }
}

#[test]
fn a_bad_sample_leaves_the_old_levels() {
    let scratch = Scratch::new("samples");
    scratch.write("levels.txt", "old\n");
    scratch.write("samples.txt", as_text(&samples()) + "12x\n");
    scratch.write("samples.raw", [0; 4003]);
    let to_levels = |more: &str| format!("run --settings line.settings --out levels.txt {more}");
    let text = to_levels("--in samples.txt --piece 1");
    faulty(
        &scratch,
        &text,
        "samples.txt:901: 12x is not a whole number of 32 bits\n",
    );
    let raw = to_levels("--in samples.raw --format raw --piece 10");
    faulty(
        &scratch,
        &raw,
        "samples.raw: ends within a sample, at byte 4003\n",
    );
    assert_eq!(scratch.read("levels.txt"), b"old\n");
}
