//! Two files of levels compared: by bits, in every format.

use crate::scratch::{Scratch, printed, told};

fn bytes(levels: &[f32]) -> Vec<u8> {
    levels
        .iter()
        .flat_map(|level| level.to_le_bytes())
        .collect()
}

#[test]
fn the_first_level_that_differs_is_told_with_its_bits() {
    let scratch = Scratch::new("compare");
    scratch.write("a.txt", "0.5\n0\nNaN\n");
    scratch.write("b.txt", "0.5\n-0\nNaN\n");
    let differ = scratch.gauge("compare a.txt b.txt");
    assert_eq!(differ.status.code(), Some(1));
    assert_eq!(
        printed(&differ),
        "level 1, counted from 0: a.txt has 0 (0x00000000), b.txt has -0 (0x80000000)\n"
    );
    assert!(differ.stderr.is_empty());
    let same = scratch.gauge("compare a.txt a.txt");
    assert!(same.status.success());
    assert_eq!(printed(&same), "3 levels, the same in both files\n");
}

#[test]
fn formats_may_differ_and_lengths_are_told() {
    let scratch = Scratch::new("compare-formats");
    scratch.write("a.csv", "sample,level\n1.5,0.5\n5.5,-0\n");
    scratch.write("a.txt", "0.5\n-0\n");
    scratch.write("long.txt", "0.5\n-0\n1\n");
    assert!(scratch.gauge("compare a.csv a.txt").status.success());
    let short = scratch.gauge("compare long.txt a.csv");
    assert_eq!(short.status.code(), Some(1));
    assert_eq!(
        printed(&short),
        "a.csv ends after 2 levels, the same in long.txt, which has more\n"
    );
}

#[test]
fn raw_levels_are_read_by_name_and_every_nan_is_one() {
    let scratch = Scratch::new("compare-raw");
    scratch.write("a.raw", bytes(&[0.25, f32::NAN]));
    scratch.write("b.raw", bytes(&[0.25, f32::from_bits(0xffc0_0007)]));
    let same = scratch.gauge("compare --format raw a.raw b.raw");
    assert_eq!(printed(&same), "2 levels, the same in both files\n");
    scratch.write("cut.raw", &bytes(&[0.25])[..3]);
    let cut = scratch.gauge("compare --format=raw a.raw cut.raw");
    assert_eq!(cut.status.code(), Some(2));
    assert_eq!(told(&cut), "cut.raw: ends inside a level\n");
}

#[test]
fn what_is_no_level_is_named_with_its_line() {
    let scratch = Scratch::new("compare-faults");
    scratch.write("a.txt", "0.5\n");
    scratch.write("b.txt", "0.5\n\nx\n");
    let wrong = scratch.gauge("compare b.txt b.txt");
    assert_eq!(told(&wrong), "b.txt:3: x is no level\n");
    let alone = scratch.gauge("compare a.txt");
    assert!(told(&alone).starts_with("gauge: the second file is missing;"));
    let three = scratch.gauge("compare a.txt a.txt b.txt");
    assert!(told(&three).starts_with("gauge: the second file is given twice;"));
}

#[test]
fn what_run_writes_is_the_same_however_it_is_cut() {
    let scratch = Scratch::with_one("compare-run");
    scratch.write("samples.txt", "0\n16384\n-16384\n");
    for out in [
        "a.txt --piece 1",
        "b.txt --span 1",
        "c.csv --out-format csv",
    ] {
        let run = format!("run --settings one.settings samples.txt --out {out}");
        assert!(scratch.gauge(&run).status.success());
    }
    assert!(scratch.gauge("compare a.txt b.txt").status.success());
    assert!(scratch.gauge("compare a.txt c.csv").status.success());
}
