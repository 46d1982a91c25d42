//! The test program of targets/, on x86-64: compiled as C99, run and run under valgrind; it calls every function of the archive, and compare.sh finds a difference.
//! calls.awk finds what makes a stack boundless, recompile.sh what a machine of 32 bits would lay out otherwise.

use crate::support::{archive, command, fails, files, filtered, have, printed, same, scratch};
use crate::symbols::archived;
use std::fs;
use std::path::{Path, PathBuf};

const STRICT: [&str; 11] = [
    "-std=c99",
    "-Wall",
    "-Wextra",
    "-Werror",
    "-pedantic",
    "-Wconversion",
    "-Wshadow",
    "-Iinclude",
    "-Itargets/program",
    "-O2",
    "-g",
];

// The program's objects.
fn objects(to: &Path) -> Vec<PathBuf> {
    let mut sources = files("targets/program", ".c");
    sources.push(PathBuf::from("targets/stdio.c"));
    let compiled = sources.into_iter().map(|source| {
        let object = to.join(source.file_name().unwrap()).with_extension("o");
        printed(
            command("gcc")
                .args(STRICT)
                .arg("-c")
                .arg(&source)
                .arg("-o")
                .arg(&object),
        );
        object
    });
    compiled.collect()
}

fn program(objects: &[PathBuf], to: &Path) -> PathBuf {
    let program = to.join("program");
    printed(
        command("gcc")
            .args(objects)
            .arg(archive())
            .arg("-o")
            .arg(&program),
    );
    program
}

#[test]
fn the_program_calls_every_function() {
    let to = scratch("targets_calls");
    let listed = printed(command("nm").arg("-u").args(objects(&to)));
    let mut called: Vec<String> = listed
        .lines()
        .filter_map(|line| line.split_whitespace().last())
        .filter(|name| name.starts_with("gauge_"))
        .map(str::to_string)
        .collect();
    called.sort();
    called.dedup();
    assert_eq!(archived(), called);
}

#[test]
fn the_program_prints_the_same_under_valgrind() {
    let to = scratch("targets_valgrind");
    let program = program(&objects(&to), &to);
    let shown = printed(&mut command(&program));
    assert!(shown.contains(" nan"));
    if have("valgrind", "the program of targets/ is not run under it") {
        let options = ["--quiet", "--error-exitcode=1"];
        same(
            "valgrind",
            &shown,
            &printed(command("valgrind").args(options).arg(&program)),
        );
    }
}

// What another machine printed is the same where it is the same, and no change of it is.
#[test]
fn a_difference_is_found() {
    let to = scratch("targets_compare");
    let program = program(&objects(&to), &to);
    let shown = printed(&mut command(&program));
    let (here, there) = (to.join("printed.txt"), to.join("changed.txt"));
    fs::write(&here, &shown).unwrap();
    printed(command("targets/compare.sh").arg(&here).arg(&here));
    for changed in changes(&shown) {
        assert_ne!(changed, shown);
        fs::write(&there, &changed).unwrap();
        assert!(fails(command("targets/compare.sh").arg(&here).arg(&there)));
    }
    assert!(fails(
        command("targets/compare.sh").args(["/dev/null", "/dev/null"])
    ));
}

// A pair with a pointer whose places anywhere.sed does not say ends the recompilation; those that it knows get as far as the compiler, of which there is none here.
#[test]
fn an_unknown_pair_is_found() {
    let to = scratch("targets_pairs");
    fs::create_dir_all(to.join("targets")).unwrap();
    for (pair, known) in [
        ("{ ptr, i64 }", true),
        ("{ i8, ptr }", true),
        ("{ i16, ptr }", false),
        ("{ ptr, ptr }", false),
    ] {
        let text = format!("  %r0 = load {pair}, ptr %a0, align 8\n");
        fs::write(to.join("targets/module.ll"), text).unwrap();
        let ended = command("targets/recompile.sh")
            .env("GAUGE_TARGET", &to)
            .arg("wasm32-unknown-unknown")
            .arg(to.join("module.o"))
            .output()
            .unwrap();
        let said = String::from_utf8_lossy(&ended.stderr);
        assert!(!ended.status.success());
        assert_eq!(
            said.contains(&format!("these stand: {pair}")),
            !known,
            "{said}"
        );
    }
}

// A value more in a line, another last digit, no last line, a NaN of certain bits, nothing.
fn changes(shown: &str) -> [String; 5] {
    let lines: Vec<&str> = shown.lines().collect();
    let mut longer = lines.clone();
    let line = format!("{} 0", longer[999]);
    longer[999] = &line;
    let (front, last) = shown.trim_end().split_at(shown.trim_end().len() - 1);
    [
        longer.join("\n") + "\n",
        format!("{front}f{last}\n"),
        lines[..lines.len() - 1].join("\n") + "\n",
        shown.replacen(" nan", " 7fc00000", 1),
        String::new(),
    ]
}

#[test]
fn calls_without_a_bound_are_found() {
    for call in ["call void @f(ptr %p)", "%r = call i64 %p()"] {
        let module = format!("define void @f(ptr %p) {{\n  {call}\n}}\n");
        let script = "awk -f targets/calls.awk >/dev/null 2>&1 && echo bounded || echo boundless";
        assert_eq!(
            filtered(command("bash").args(["-c", script]), &module),
            "boundless\n",
            "{call}"
        );
    }
}
