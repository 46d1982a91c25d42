//! The tracked bindings are what host/bindings prints from the crates, and it finds what it should: each edit below, made to a copy of the tree, must be said to differ, where it was made.

use crate::support::{command, files, printed, read, root};
use std::ops::Deref;
use std::path::{Path, PathBuf};
use std::{env, fs, process};

#[test]
fn the_bindings_are_as_printed() {
    if let Err(why) = bindings::check(&root()) {
        panic!("{why}\nhost/bindings/run.sh prints them again");
    }
}

// A copy of what the program reads and prints. It has sources of Rattle, which `rt ci` wants nowhere else in the checkout, so it stands elsewhere, as long as the test runs.
struct Tree(PathBuf);

impl Deref for Tree {
    type Target = Path;

    fn deref(&self) -> &Path {
        &self.0
    }
}

impl Drop for Tree {
    fn drop(&mut self) {
        // What is left of it is in no one's way.
        let _ = fs::remove_dir_all(&self.0);
    }
}

fn copy(name: &str) -> Tree {
    let tree = env::temp_dir().join(format!("gauge-{}-{name}", process::id()));
    fs::create_dir_all(&tree).expect("a folder can be made");
    let paths = [
        "crates/refusal/specs",
        "include",
        "host/gauge-line/src",
        "python/gauge_line",
        "host/page/src/declarations.js",
        "host/bindings/refusals.txt",
        "host/bindings/limits.txt",
    ];
    let sources = files("crates", "")
        .into_iter()
        .map(|folder| folder.join("src"));
    printed(
        command("cp")
            .args(["-r", "--parents"])
            .args(paths)
            .args(sources)
            .arg(&tree),
    );
    Tree(tree)
}

// The file with one text in place of another, which it must have.
fn edit(tree: &Path, file: &str, old: &str, new: &str) {
    let text = read(file);
    assert!(text.contains(old), "{file} has no {old}");
    fs::write(tree.join(file), text.replace(old, new)).unwrap();
}

// What is said of the tree with an edit, which is then taken back.
fn said(tree: &Path, (file, old, new): (&str, &str, &str)) -> String {
    edit(tree, file, old, new);
    let said = bindings::check(tree).err();
    fs::copy(root().join(file), tree.join(file)).unwrap();
    said.unwrap_or_else(|| panic!("{new} in {file} was not found"))
}

const RAW_H: &str = "include/gauge_raw.h";
const RAW_RS: &str = "host/gauge-line/src/raw.rs";
const RAW_PY: &str = "python/gauge_line/raw.py";
const JS: &str = "host/page/src/declarations.js";
const REFUSAL_H: &str = "include/gauge_refusal.h";

// File, text, what takes its place.
const TRACKED: [(&str, &str, &str); 23] = [
    (
        RAW_H,
        "uint64_t *taken, uint64_t *written",
        "uint64_t *written, uint64_t *taken",
    ),
    (RAW_H, "const float *src", "float *src"),
    (
        RAW_H,
        "int32_t combs[GAUGE_MOST_STAGES]",
        "int32_t combs[7]",
    ),
    (RAW_H, "int32_t input", "int64_t input"),
    (
        RAW_H,
        "uint64_t gauge_raw_hbf_dec_cascade_reset",
        "void gauge_raw_hbf_dec_cascade_reset",
    ),
    (
        RAW_H,
        "uint64_t gauge_raw_hbf_stream_reset",
        "// uint64_t gauge_raw_hbf_stream_reset",
    ),
    ("include/gauge_q15.h", "uint64_t coeffs_len, ", ""),
    (
        "include/gauge_line.h",
        "    uint64_t wait;",
        "    uint32_t wait;",
    ),
    (
        "include/gauge_line.h",
        "&(s)->factor, (s)->fir_delay, &(s)->wait",
        "&(s)->wait, (s)->fir_delay, &(s)->factor",
    ),
    (
        REFUSAL_H,
        "GAUGE_REFUSED_STEP = 14",
        "GAUGE_REFUSED_STEP = 13",
    ),
    (REFUSAL_H, "return \"Phases\"", "return \"Phase\""),
    (
        "include/gauge_limits.h",
        "GAUGE_MOST_BLOCK 65536",
        "GAUGE_MOST_BLOCK 65535",
    ),
    ("host/gauge-line/src/refusal.rs", "Ratio = 9", "Ratio = 19"),
    ("host/gauge-line/src/limits.rs", "= 4096", "= 4095"),
    (RAW_RS, "wanted_depth: u64", "wanted_depth: usize"),
    (RAW_RS, "sum: &mut i32", "sum: &mut i64"),
    (RAW_RS, "ratio: f32,", ""),
    (
        RAW_PY,
        "(\"factor\", u64),\n        (\"fir_delay\", i16 * limits.MOST_TAPS),",
        "(\"fir_delay\", i16 * limits.MOST_TAPS),\n        (\"factor\", u64),",
    ),
    (
        RAW_PY,
        "(\"out\", POINTER(f32)), (\"out_len\", u64)",
        "(\"out_len\", u64), (\"out\", POINTER(f32))",
    ),
    (
        "python/gauge_line/limits.py",
        "MOST_TAPS = 128",
        "MOST_TAPS = 64",
    ),
    (
        "python/gauge_line/refusals.py",
        "14: (\"Step\"",
        "14: (\"Steps\"",
    ),
    (JS, "'written: &mut u64'", "'written: u64'"),
    (JS, "14: ['Step'", "15: ['Step'"),
];

#[test]
fn an_edit_of_a_tracked_file_is_found_in_it() {
    let tree = copy("edited");
    for edit in TRACKED {
        let said = said(&tree, edit);
        assert!(said.starts_with(edit.0), "{said}");
    }
}

#[test]
fn an_edit_of_a_declaration_is_found_in_every_language() {
    let tree = copy("declared");
    let line = "crates/gauge_line/src/gauge_line.rt";
    let edits = [
        (
            "crates/gauge_line/src/cic_decimator.rt",
            "input: i32",
            "input: i64",
            RAW_H,
        ),
        (line, "wanted_r: usize", "wanted_r: u32", RAW_H),
        (
            line,
            "counts: &mut",
            "counted: &mut",
            "include/gauge_line.h",
        ),
        (
            "crates/gauge_line/src/q15_blocks.rt",
            "src: &[i16]",
            "src: &mut [i16]",
            "include/gauge_q15.h",
        ),
    ];
    for (file, old, new, header) in edits {
        let said = said(&tree, (file, old, new));
        assert!(said.contains(header) && said.contains(RAW_RS), "{said}");
        // Pointers of ctypes are all for writing.
        assert!(said.contains(RAW_PY) || new.contains("&mut ["), "{said}");
    }
}

#[test]
fn an_edit_of_a_limit_is_found_in_every_language() {
    let tree = copy("limits");
    let rows = (
        "crates/refusal/src/rows.rt",
        "MOST_BLOCK: usize = ",
        "MOST_BLOCK: usize = 2 * ",
    );
    let said = said(&tree, rows);
    for printed in ["include/gauge_limits.h:", "limits.rs:", "limits.py:"] {
        assert!(said.contains(printed), "{said}");
    }
}

// The declarations with every array of i16 of this length.
fn of_length(declared: &str, length: &str) -> String {
    let mut pieces = declared.split("[i16; ");
    let first = pieces.next().unwrap_or_default();
    let behind = pieces.filter_map(|piece| piece.split_once(']'));
    let arrays: String = behind
        .map(|(_, rest)| format!("[i16; {length}]{rest}"))
        .collect();
    assert!(!arrays.is_empty(), "no array of i16");
    format!("{first}{arrays}")
}

// With lengths by name, through a use or by their path, nothing is printed differently, and a constant that moves moves the limits alone.
#[test]
fn a_length_by_name_moves_with_its_constant() {
    let tree = copy("named");
    let (fir, line) = (
        "crates/gauge_line/src/fir_decimator.rt",
        "crates/gauge_line/src/gauge_line.rt",
    );
    fs::write(tree.join(fir), of_length(&read(fir), "q15::MOST_TAPS")).unwrap();
    let named = of_length(&read(line), "MOST_TAPS");
    fs::write(
        tree.join(line),
        format!("use q15::fir_settings::MOST_TAPS;\n{named}"),
    )
    .unwrap();
    bindings::check(&tree).unwrap();
    let moved = (
        "crates/q15/src/fir_settings.rt",
        "MOST_TAPS: usize = ",
        "MOST_TAPS: usize = 2 * ",
    );
    let said = said(&tree, moved);
    assert!(
        said.contains("include/gauge_limits.h:") && said.contains("limits.rs:"),
        "{said}"
    );
    assert!(!said.contains(RAW_H) && !said.contains(RAW_RS), "{said}");
}

// File, text, what takes its place, what is said of it.
const MISSING: [(&str, &str, &str, &str); 9] = [
    (
        "crates/gauge_line/src/values.rt",
        "gauge_raw_cut_q15",
        "gauge_cut",
        "gauge_cut",
    ),
    (
        "crates/gauge_line/src/values.rt",
        "sum: i64",
        "sum: i128",
        "no number i128",
    ),
    (
        "crates/gauge_line/src/values.rt",
        "taps: &mut [f32; ",
        "taps: &mut [i16; ",
        "has no length for an array",
    ),
    (
        "crates/refusal/src/rows.rt",
        "const MOST_BLOCK",
        "const LONGEST",
        "no constant MOST_BLOCK",
    ),
    (
        "crates/refusal/src/lib.rt",
        "Step = 14",
        "Step = 16",
        "differently",
    ),
    (
        "host/bindings/limits.txt",
        "MOST_TAPS = q15::MOST_TAPS (i16)",
        "MOST_TAPS = q15::MOST_TAPS",
        "has no length for an array",
    ),
    (
        "host/bindings/refusals.txt",
        "Depth: ",
        "Deep: ",
        "no words for 11, Depth",
    ),
    (
        "include/gauge_cic.h",
        "printed: state cic_decimator",
        "printed: state decimator",
        "state decimator",
    ),
    (
        "include/gauge_cic.h",
        "// printed: state cic_decimator",
        "//",
        "state cic_decimator",
    ),
];

// What the program cannot print stops it, with what is missing.
#[test]
fn what_is_missing_is_named() {
    let tree = copy("missing");
    for (file, old, new, named) in MISSING {
        let said = said(&tree, (file, old, new));
        assert!(said.contains(named), "{said}");
    }
}

// A refusal more, in the code, in the table and in words, is printed with no other change.
#[test]
fn a_new_refusal_is_printed() {
    let tree = copy("refusal");
    let (code, table) = (
        "crates/refusal/src/lib.rt",
        "crates/refusal/specs/Table.antt",
    );
    let words = "host/bindings/refusals.txt";
    let number = read(table).matches("\nnumber_of ").count() + 1;
    let case = format!("NewRow = {number},\n    State = ");
    edit(&tree, code, "State = ", &case);
    let row = format!("number_of NewRow = {number}\nnumber_of State = ");
    edit(&tree, table, "number_of State = ", &row);
    edit(
        &tree,
        words,
        "State: ",
        "NewRow: row of {MOST_DEPTH}\nState: ",
    );
    bindings::write(&tree).unwrap();
    let header = fs::read_to_string(tree.join(REFUSAL_H)).unwrap();
    let rust = fs::read_to_string(tree.join("host/gauge-line/src/refusal.rs")).unwrap();
    let in_c = format!("// Row of GAUGE_MOST_DEPTH.\n    GAUGE_REFUSED_NEW_ROW = {number}\n");
    let in_rust = format!("/// Row of 5.\n    NewRow = {number},\n");
    assert!(header.contains(&in_c) && rust.contains(&in_rust));
    let table = fs::read_to_string(tree.join("python/gauge_line/refusals.py")).unwrap();
    assert!(table.contains(&format!("{number}: (\"NewRow\", \"row of 5\"),\n")));
    bindings::check(&tree).unwrap();
}
