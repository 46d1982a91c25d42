//! The archive has the functions that crates/gauge_line/src exports and no others, wants three functions of the C library at most, and has no data that can be written.

use crate::support::{archive, command, printed, root, scratch};
use std::fs;

/// The functions that the archive defines, in order.
pub fn archived() -> Vec<String> {
    let listed = printed(command("nm").args(["-g", "--defined-only"]).arg(archive()));
    let mut names: Vec<String> = listed
        .lines()
        .filter_map(|line| line.split_once(" T ").map(|(_, name)| name.to_string()))
        .collect();
    names.sort();
    names
}

#[test]
fn the_archive_has_the_exported_functions() {
    let mut exported = bindings::names(&root()).unwrap();
    exported.sort();
    assert!(!exported.is_empty());
    assert_eq!(exported, archived());
}

// Symbols beside code and constants: functions of the C library.
#[test]
fn the_archive_has_no_state() {
    let wanted = ["memcpy", "memmove", "memset"];
    for line in printed(command("nm").arg(archive())).lines() {
        let words: Vec<&str> = line.split_whitespace().collect();
        let [.., kind, name] = words[..] else {
            continue;
        };
        let known = matches!(kind, "T" | "t" | "R" | "r") || kind == "U" && wanted.contains(&name);
        assert!(known, "{line}");
    }
}

// A header from before request 7 or 13 has shorter structs or fewer settings, and calls these: a program that was compiled with it is not linked.
#[test]
fn an_older_header_does_not_link() {
    let folder = scratch("older_header");
    let program = folder.join("older.c");
    for name in [
        "gauge_raw_line_open",
        "gauge_raw_line_open_2",
        "gauge_raw_line_take_up",
        "gauge_raw_line_take_up_2",
        "gauge_raw_fir_decimator_new",
        "gauge_raw_plan",
    ] {
        let calls = format!("int {name}(void);\nint main(void) {{ return {name}(); }}\n");
        fs::write(&program, calls).expect("a program can be written");
        let mut link = command("gcc");
        link.arg(&program)
            .arg(archive())
            .arg("-o")
            .arg(folder.join("older"));
        let linked = link.output().expect("gcc runs");
        let said = String::from_utf8_lossy(&linked.stderr);
        assert!(!linked.status.success(), "{name} is linked");
        assert!(
            said.contains("undefined reference") && said.contains(name),
            "{said}"
        );
    }
}
