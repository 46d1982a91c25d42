//! Whatever stands in the files and arguments, the tool ends with a status of its own and no panic.

use crate::scratch::Scratch;
use std::ffi::OsString;
use std::os::unix::ffi::OsStringExt;
use std::os::unix::process::ExitStatusExt;
use std::process::Stdio;

// Tries, where GAUGE_TRIES does not say how many.
const TRIES: u64 = 300;

// A generator of numbers (xorshift): the same ones on every machine.
struct Random(u64);

impl Random {
    fn next(&mut self) -> u64 {
        self.0 ^= self.0 << 13;
        self.0 ^= self.0 >> 7;
        self.0 ^= self.0 << 17;
        self.0
    }

    fn below(&mut self, most: usize) -> usize {
        (self.next() >> 11) as usize % most
    }

    fn of<'a, T>(&mut self, all: &'a [T]) -> &'a T {
        &all[self.below(all.len())]
    }
}

const VALUES: [&str; 32] = [
    "1",
    "2",
    "3",
    "4",
    "5",
    "8",
    "16",
    "64",
    "0",
    "-1",
    "4096",
    "4097",
    "1e9",
    ".5",
    "0.9375",
    "nan",
    "inf",
    "1e-40",
    "99999999999999999999",
    "",
    "\"x\"",
    "[1]",
    "\u{2212}1",
    "\u{a0}",
    "1 2 3 4",
    "32767 -32768",
    "1 0.5 0 0.5",
    "natural 0 .5 1 .5",
    "natural",
    "a.taps",
    "b.taps",
    "3e38 3e38 3e38 3e38",
];

const NAMES: [&str; 13] = [
    "stages",
    "r",
    "factor",
    "taps",
    "depth",
    "phases",
    "phase_taps",
    "phase",
    "step",
    "prototype",
    "rate",
    "x",
    "",
];

// Settings that open a line, to be followed by others.
const GOOD: [&str; 3] = [
    "stages = 2\nr = 3\n",
    "stages = 1\nr = 1\ntaps = 16384 16384\nfactor = 2\ndepth = 1\n",
    "stages = 3\nr = 64\nphases = 2\nphase_taps = 2\nprototype = 1 0.5 0 0.5\nstep = 0.75\n",
];

fn settings(random: &mut Random) -> Vec<u8> {
    let mut text = if random.below(3) > 0 {
        random.of(&GOOD).to_string()
    } else {
        String::new()
    };
    for _ in 0..random.below(4) {
        let (name, value) = (*random.of(&NAMES), *random.of(&VALUES));
        text += &format!("{name} = {value}\n");
    }
    broken(random, text.into_bytes())
}

// One time in four some bytes are changed.
fn broken(random: &mut Random, mut bytes: Vec<u8>) -> Vec<u8> {
    if random.below(4) == 0 && !bytes.is_empty() {
        for _ in 0..=random.below(3) {
            let at = random.below(bytes.len());
            bytes[at] = random.next() as u8;
        }
        let length = random.below(bytes.len() + 1);
        bytes.truncate(length);
    }
    bytes
}

const LINES: [&str; 14] = [
    "0",
    "16384",
    "-32768",
    "2147483647",
    "-2147483648",
    "8192.0",
    "1e3",
    "1.5",
    "# x",
    "",
    "time,level",
    "1,2",
    "\"1;2\";3",
    "\u{feff}5",
];

fn recording(random: &mut Random) -> Vec<u8> {
    let lines = random.below(60);
    let bytes = match random.below(4) {
        0 => (0..lines * 4).map(|_| random.next() as u8).collect(),
        1 => wav(random, lines),
        _ => {
            let line = *random.of(&LINES);
            let line = |random: &mut Random| match random.below(8) {
                0 => format!("{}\n", random.of(&LINES)),
                _ => format!("{line}\n"),
            };
            let text: String = (0..lines).map(|_| line(random)).collect();
            text.into_bytes()
        }
    };
    broken(random, bytes)
}

fn wav(random: &mut Random, samples: usize) -> Vec<u8> {
    let mut bytes = b"RIFF\0\0\0\0WAVEfmt \x10\0\0\0".to_vec();
    let bits = *random.of(&[8u16, 16, 24, 32]);
    let channels = *random.of(&[0u16, 1, 2, 3]);
    let frame = channels * bits / 8;
    for two in [1, channels, 8000, 0, 0, 0, frame, bits] {
        bytes.extend(two.to_le_bytes());
    }
    let data = samples * usize::from(frame);
    bytes.extend(b"data");
    bytes.extend((data as u32).to_le_bytes());
    bytes.extend((0..data).map(|_| random.next() as u8));
    bytes
}

const OPTIONS: [&str; 40] = [
    "--format",
    "--format=text",
    "--format=raw",
    "--format=raw16",
    "--format=csv",
    "--format=wav",
    "--out-format=csv",
    "--out-format=raw",
    "--out-format=text",
    "--column=1",
    "--column=2",
    "--column=level",
    "--channel=1",
    "--channel=2",
    "--channel=65536",
    "--shift=8",
    "--shift=31",
    "--shift=32",
    "--rate=8",
    "--rate=1e-6",
    "--rate=1e12",
    "--rate=x",
    "--piece=1",
    "--piece=7",
    "--span=1",
    "--span=3",
    "--out=a.out",
    "--out=a.in",
    "--out=a.settings",
    "--out=/dev/null",
    "--out=none/a",
    "--in=a.in",
    "--in=-",
    "-",
    "--x",
    "--piece",
    "--help",
    "--version",
    "=",
    "--",
];

fn arguments(random: &mut Random) -> Vec<OsString> {
    let command = *random.of(&[
        "run", "run", "run", "explain", "response", "plot", "help", "version", "rum",
    ]);
    let mut all = vec![OsString::from(command)];
    if random.below(16) > 0 {
        all.push("--settings=a.settings".into());
    }
    let reads = !["explain", "response"].contains(&command);
    if reads && random.below(8) > 0 {
        all.push("a.in".into());
    }
    if command == "response" {
        all.extend(["--points=2", "--stop=0.01"].map(OsString::from));
    }
    for _ in 0..random.below(4) {
        let option = random.of(&OPTIONS).as_bytes().to_vec();
        let option = if random.below(8) == 0 {
            broken(random, option)
        } else {
            option
        };
        // An argument cannot hold a NUL.
        all.push(OsString::from_vec(
            option.into_iter().filter(|byte| *byte > 0).collect(),
        ));
    }
    all
}

#[test]
fn random_files_and_arguments_end_without_a_panic() {
    let tries = std::env::var("GAUGE_TRIES").ok();
    let tries = tries.map_or(TRIES, |tries| tries.parse().unwrap());
    let scratch = Scratch::new("random");
    scratch.write("a.taps", "100 200\n");
    let mut random = Random(0x2545_f491_4f6c_dd1d);
    let mut done = 0;
    for at in 0..tries {
        scratch.write("a.settings", settings(&mut random));
        scratch.write("a.in", recording(&mut random));
        let arguments = arguments(&mut random);
        let mut command = scratch.command();
        command.args(&arguments).stdin(Stdio::null());
        let run = command.output().unwrap();
        let told = String::from_utf8_lossy(&run.stderr);
        let ended = matches!(run.status.code(), Some(0 | 2));
        assert!(
            ended && run.status.signal().is_none(),
            "{at}: {arguments:?}: {told}"
        );
        assert!(!told.contains("panicked"), "{at}: {arguments:?}: {told}");
        done += u64::from(run.status.success() && !run.stdout.is_empty());
    }
    // The tries are not all refused.
    assert!(done > tries / 10, "{done}");
}
