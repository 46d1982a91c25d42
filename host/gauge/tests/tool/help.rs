//! What the help teaches is so.

use crate::scratch::Scratch;

// The lines of the help that are set in, from the one that begins so on.
fn example(help: &str, front: &str) -> String {
    let from = help.lines().skip_while(|line| !line.starts_with(front));
    let lines = from.take_while(|line| line.starts_with("    "));
    lines.map(|line| format!("{}\n", line.trim())).collect()
}

#[test]
fn its_settings_open_a_line_and_its_fault_is_told() {
    let scratch = Scratch::new("help");
    let help = scratch.gauge("--help");
    assert!(help.status.success() && help.stderr.is_empty());
    assert_eq!(scratch.gauge("help"), help);
    assert_eq!(scratch.gauge("run --help"), help);
    let version = scratch.gauge("--version");
    let said = concat!("gauge ", env!("CARGO_PKG_VERSION"), "\n");
    assert_eq!(version.stdout, said.as_bytes());
    assert_eq!(scratch.gauge("version"), version);

    let help = String::from_utf8(help.stdout).unwrap();
    scratch.write("line.settings", example(&help, "    stages = "));
    let explained = scratch.gauge("explain --settings line.settings");
    assert!(explained.status.success() && explained.stderr.is_empty());

    scratch.write("tail.settings", "stages = 8\nr = 15\n");
    let told = scratch.gauge("explain --settings tail.settings").stderr;
    let said = example(&help, "    tail.settings:");
    assert_eq!(String::from_utf8(told).unwrap(), said);
}
