//! A prototype phase by phase: what is turned comes back, and a line takes it either way.

use crate::scratch::{Scratch, as_text, printed, samples, told};

#[test]
fn each_way_undoes_the_other() {
    let scratch = Scratch::new("phases");
    scratch.write("by.taps", "0 0.1 0.2\n1 1.1 1.2\n");
    let size = "--phases 3 --phase-taps 2";
    let rows = scratch.gauge(&format!("phases by.taps --by-phase {size}"));
    assert_eq!(printed(&rows), "0 1\n0.1 1.1\n0.2 1.2\n");
    scratch.write("by.phase", &rows.stdout);
    let back = scratch.gauge(&format!("phases by.phase --by-tap {size} --out back"));
    assert!(back.status.success(), "{}", told(&back));
    assert_eq!(scratch.read("back"), scratch.read("by.taps"));
}

#[test]
fn a_line_reads_rows_as_it_reads_taps() {
    let scratch = Scratch::new("phases-line");
    scratch.write("by.taps", "1 0.5 0 0.5\n");
    let turned =
        scratch.gauge("phases by.taps --by-phase --settings line.settings --out line.rows");
    assert!(turned.status.success(), "{}", told(&turned));
    assert_eq!(scratch.read("line.rows"), b"1 0\n0.5 0.5\n");
    let settings = String::from_utf8(scratch.read("line.settings")).unwrap();
    let rows = settings.replace("prototype = 1 0.5 0 0.5", "prototype_rows = line.rows");
    scratch.write("rows.settings", rows);
    scratch.write("in.txt", as_text(&samples()));
    let plain = scratch.gauge("run --settings line.settings in.txt");
    let rows = scratch.gauge("run --settings rows.settings in.txt");
    assert!(rows.status.success(), "{}", told(&rows));
    assert_eq!(printed(&rows), printed(&plain));
    assert!(!rows.stdout.is_empty());
}

#[test]
fn what_is_wrong_is_told() {
    let scratch = Scratch::new("phases-faults");
    scratch.write("p", "1 2 3\n");
    let size = "gauge: phases wants either --settings or both --phases and --phase-taps";
    let way = "gauge: phases wants either --by-phase or --by-tap";
    for (arguments, said) in [
        (
            "p --by-tap --phases 2 --phase-taps 2",
            "p: refusal 13, Prototype: 3 given, 2 × 2 = 4 wanted",
        ),
        (
            "p --by-phase --phases 1 --phase-taps 3",
            "p: refusal 12, Phases: 1 phases of 3 taps; 2 to 64 of 1 to 16",
        ),
        ("p --phases 3 --phase-taps 1", way),
        ("p --by-tap --by-phase --phases 3 --phase-taps 1", way),
        ("p --by-tap --phases 3", size),
        ("p --by-tap", size),
        (
            "p --by-tap --phases 3 --phase-taps 1 --out p",
            "gauge: --out p is the file of the prototype, p; it stays as it is",
        ),
    ] {
        let run = scratch.gauge(&format!("phases {arguments}"));
        assert_eq!(run.status.code(), Some(2), "{arguments}");
        assert!(told(&run).starts_with(said), "{arguments}: {}", told(&run));
    }
}
