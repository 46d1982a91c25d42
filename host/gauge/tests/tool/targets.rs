//! Where levels go: a file that is whole, in its place, and what it was before in all but its bytes.

use crate::scratch::{SETTINGS, Scratch, as_text, samples, told};
use std::fs;
use std::io::{Read, Write};
use std::os::unix::ffi::OsStringExt;
use std::os::unix::fs::{MetadataExt, PermissionsExt, symlink};
use std::process::{Command, Stdio};
use std::thread::sleep;
use std::time::Duration;

const RUN: &str = "run --settings line.settings --in samples.txt --out levels.txt";

#[test]
fn a_file_has_what_standard_output_has() {
    let scratch = Scratch::new("out");
    scratch.write("samples.txt", as_text(&samples()));
    let printed = scratch
        .gauge("run --settings line.settings --in samples.txt")
        .stdout;
    let run = scratch.gauge(RUN);
    assert!(run.status.success() && run.stdout.is_empty());
    assert_eq!(scratch.read("levels.txt"), printed);
    let names = ["levels.txt", "line.settings", "samples.txt", "smooth.taps"];
    assert_eq!(scratch.names(), names);
}

// Point 4: a file that is read is not written, whatever its name is.
#[test]
fn a_file_that_is_read_is_not_written() {
    let scratch = Scratch::new("same");
    scratch.write("samples.txt", "1\n2\n");
    scratch.write("h.txt", "0 0.5 1 0.5\n");
    let settings = SETTINGS.replace("prototype = 1 0.5 0 0.5", "prototype = natural h.txt");
    scratch.write("line.settings", settings);
    symlink("samples.txt", scratch.place("by-link")).unwrap();
    fs::hard_link(scratch.place("samples.txt"), scratch.place("by-name")).unwrap();
    let files = ["samples.txt", "line.settings", "smooth.taps", "h.txt"];
    let before = files.map(|name| scratch.read(name));
    for command in ["run", "plot"] {
        for out in ["./samples.txt", "by-link", "by-name"].iter().chain(&files) {
            refuses(&scratch, command, out);
        }
        let by_stream = format!("{command} --settings line.settings --out h.txt <h.txt");
        let appended = format!("{command} --settings line.settings --in samples.txt >>samples.txt");
        for line in [by_stream, appended] {
            let run = scratch.shell(&format!("gauge {line}"));
            assert_eq!(run.status.code(), Some(2), "{line}");
        }
    }
    assert_eq!(files.map(|name| scratch.read(name)), before);
    assert!(scratch.place("by-link").is_symlink());
}

fn refuses(scratch: &Scratch, command: &str, out: &str) {
    let arguments = format!("{command} --settings line.settings --in samples.txt --out {out}");
    let run = scratch.gauge(&arguments);
    assert_eq!(run.status.code(), Some(2), "{arguments}");
    let said = format!("gauge: --out {out} is the file of ");
    assert!(told(&run).starts_with(&said), "{}", told(&run));
}

#[test]
fn modes_and_links_of_an_old_output_stay() {
    let scratch = Scratch::new("link");
    scratch.write("samples.txt", as_text(&samples()));
    scratch.write("old.txt", "old\n");
    fs::set_permissions(scratch.place("old.txt"), fs::Permissions::from_mode(0o640)).unwrap();
    symlink("old.txt", scratch.place("levels.txt")).unwrap();
    assert!(scratch.gauge(RUN).status.success());
    let levels = scratch.read("old.txt");
    assert_ne!(levels, b"old\n");
    assert!(scratch.place("levels.txt").is_symlink());
    let mode = |name: &str| fs::metadata(scratch.place(name)).unwrap().mode() & 0o777;
    assert_eq!(mode("old.txt"), 0o640);

    fs::hard_link(scratch.place("old.txt"), scratch.place("other.txt")).unwrap();
    scratch.write("old.txt", vec![b'x'; 2 * levels.len()]);
    assert!(scratch.gauge(RUN).status.success());
    assert_eq!(scratch.read("other.txt"), levels);
    assert_eq!(mode("other.txt"), 0o640);

    symlink("new.txt", scratch.place("ahead.txt")).unwrap();
    scratch.gauge("run --settings line.settings --in samples.txt --out ahead.txt");
    assert_eq!(scratch.read("new.txt"), levels);
    assert!(scratch.place("ahead.txt").is_symlink());
}

// Point 7: whatever ends the tool, nothing is left, and what was left before is no hindrance.
#[test]
fn a_signal_leaves_nothing_behind() {
    let scratch = Scratch::new("signals");
    scratch.write("levels.txt", "old\n");
    let names = scratch.names();
    for signal in ["INT", "TERM", "HUP", "ABRT", "KILL"] {
        let gauge = scratch.command();
        // Where the tests run behind a shell that ignores INT, the tool would ignore it too.
        let mut tool = Command::new("env")
            .arg("--default-signal")
            .arg(gauge.get_program())
            .args(["run", "--settings", "line.settings", "--out", "levels.txt"])
            .current_dir(gauge.get_current_dir().unwrap())
            .stdin(Stdio::piped())
            .stderr(Stdio::null())
            .spawn()
            .unwrap();
        let text = as_text(&samples()).repeat(100);
        tool.stdin
            .as_mut()
            .unwrap()
            .write_all(text.as_bytes())
            .unwrap();
        sleep(Duration::from_millis(200));
        let id = tool.id().to_string();
        let sent = Command::new("kill").args(["-s", signal, &id]).status();
        assert!(sent.unwrap().success());
        assert!(!tool.wait().unwrap().success(), "{signal}");
        assert_eq!(scratch.names(), names, "{signal}");
        assert_eq!(scratch.read("levels.txt"), b"old\n");
    }
}

// In a container every run has the process id 1: exec keeps the id that the leftovers were named by.
#[test]
fn a_leftover_of_the_same_process_id_does_not_block() {
    let scratch = Scratch::new("leftover");
    scratch.write("samples.txt", as_text(&samples()));
    let line = "touch .gauge-$$-0 .gauge-$$-1 levels.txt.$$.part; exec \"$GAUGE\" run --settings line.settings --in samples.txt --out levels.txt";
    let run = scratch.shell(line);
    assert!(run.status.success(), "{}", told(&run));
    assert!(scratch.read("levels.txt").len() > 100);
}

// Point 8: bytes that are no UTF-8 name the file that they name, as output, input, settings and taps.
#[test]
fn a_path_may_be_any_bytes() {
    let scratch = Scratch::new("bytes");
    let name = |bytes: &[u8]| std::ffi::OsString::from_vec(bytes.to_vec());
    let (input, out, settings) = (name(b"in\xff"), name(b"out\xfe"), name(b"line\xfd"));
    scratch.write(&input, "8192\n16384\n");
    scratch.write(&settings, b"stages=1\nr=1\nfactor=1\ntaps=one\xfc\n");
    scratch.write(name(b"one\xfc"), "16384\n");
    let mut joined = name(b"--settings=");
    joined.push(&settings);
    let run = scratch
        .command()
        .arg("run")
        .arg(joined)
        .args([&name(b"--in"), &input, &name(b"--out"), &out])
        .output()
        .unwrap();
    assert!(run.status.success(), "{}", told(&run));
    assert_eq!(scratch.read(&out), b"0.125\n0.25\n");
    assert_eq!(fs::read_dir(scratch.place("")).unwrap().count(), 6);
}

#[test]
fn a_reader_that_goes_ends_it_quietly() {
    let scratch = Scratch::with_one("gone");
    let line = "yes 5 | head -n 100000 | gauge run --settings one.settings | head -n 1; echo ${PIPESTATUS[2]}";
    let run = scratch.shell(line);
    assert_eq!(run.stdout, b"0.00015258789\n0\n");
    assert_eq!(told(&run), "");
}

#[test]
fn a_full_standard_error_is_no_panic() {
    let scratch = Scratch::with_one("full");
    let run = scratch.shell("echo 5 | gauge run --settings one.settings 2>/dev/full; echo $?; gauge walk 2>/dev/full; echo $?; gauge run 2>&-; echo $?");
    assert_eq!(run.stdout, b"0.00015258789\n0\n2\n2\n");
    let full = scratch.shell("echo 5 | gauge run --settings one.settings >/dev/full");
    assert_eq!(full.status.code(), Some(2));
    assert!(
        told(&full).starts_with("standard output: "),
        "{}",
        told(&full)
    );
}

// A sample is a level before the next one comes; a tool that waits for more is ended.
#[test]
fn a_live_pipe_gets_each_level_at_once() {
    let scratch = Scratch::with_one("live");
    let mut tool = Command::new("timeout")
        .args(["20", env!("CARGO_BIN_EXE_gauge")])
        .args(["run", "--settings", "one.settings"])
        .current_dir(scratch.place(""))
        .stdin(Stdio::piped())
        .stdout(Stdio::piped())
        .stderr(Stdio::null())
        .spawn()
        .unwrap();
    let (mut samples, mut levels) = (tool.stdin.take().unwrap(), tool.stdout.take().unwrap());
    for _ in 0..3 {
        samples.write_all(b"16384\n").unwrap();
        let mut level = [0; 4];
        levels.read_exact(&mut level).unwrap();
        assert_eq!(&level, b"0.5\n");
    }
    drop(samples);
    assert!(tool.wait().unwrap().success());
}
