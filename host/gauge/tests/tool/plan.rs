//! Feeding plans: the table, the last line, lengths from a file, and what is refused.

use crate::scratch::{Scratch, printed, told};

const TABLE: &str = "call   piece    span   taken  written
   1      64       2      64        1
   2      64       2      64        1
   3      64       2      40        2
   4      64       2      64        1
   5      64       2      64        1
   6      64       2      64        2
span 2 was full in 2 of 6 calls; 3 is enough
";

fn with_settings(test: &str) -> Scratch {
    let scratch = Scratch::new(test);
    let settings = "stages = 3\nr = 4\ntaps = 8192 8192 8192 8192\nfactor = 2\ndepth = 2\nphases = 2\nphase_taps = 2\nprototype = 1 0.5 0 0.5\nstep = 1.5\n";
    scratch.write("plan.settings", settings);
    scratch.write("mean.settings", "stages = 1\nr = 4\n");
    scratch
}

#[test]
fn lengths_are_given_once_repeated_or_listed() {
    let scratch = with_settings("plan-lengths");
    scratch.write("calls", "64 2 # first\n\n64 2\n64 2\n64 2\n64\t2\n64 2\n");
    for lengths in [
        "--piece 64x6 --span 2",
        "--piece 64 --span 2x6",
        "--piece=64x2,64,64x3 --span 2x6",
        "--calls calls",
    ] {
        let plan = scratch.gauge(&format!("plan plan.settings {lengths}"));
        assert_eq!(printed(&plan), TABLE, "{lengths}: {}", told(&plan));
    }
}

#[test]
fn the_last_line_names_the_least_span_that_is_never_full() {
    let scratch = with_settings("plan-enough");
    let last = |lengths: &str| {
        let plan = scratch.gauge(&format!("plan mean.settings {lengths}"));
        let shown = printed(&plan);
        shown.lines().last().unwrap_or_default().to_string()
    };
    let full = "span 2 was full in 3 of 3 calls; 3 is enough";
    assert_eq!(last("--piece 8x3 --span 2"), full);
    let never = "span 3 was full in 0 of 3 calls; 3 is enough";
    assert_eq!(last("--piece 8x3 --span 3"), never);
    let listed = "the span was full in 1 of 2 calls; 3 is enough";
    assert_eq!(last("--piece 8 --span 2,9"), listed);
    scratch.write("none", "# no calls\n");
    assert_eq!(last("--calls none"), "no calls");
}

#[test]
fn what_is_refused_is_told() {
    let scratch = with_settings("plan-refused");
    scratch.write("deep.settings", "stages = 1\nr = 4\ndepth = 6\n");
    scratch.write("odd", "64 2\n64\n");
    for (arguments, said) in [
        (
            "plan mean.settings --piece 1x4097 --span 1",
            "refusal 22, Plan: 4097 calls, at most 4096",
        ),
        (
            "plan mean.settings --piece 65537 --span 1",
            "refusal 22, Plan: a piece of 65537, at most 65536",
        ),
        (
            "plan mean.settings --piece 1 --span 1,65537",
            "refusal 22, Plan: a span of 65537, at most 65536",
        ),
        (
            "plan mean.settings --piece 1x3 --span 1x2",
            "refusal 22, Plan: 3 pieces and 2 spans",
        ),
        (
            "plan deep.settings --piece 1x4097 --span 1",
            "refusal 11, Depth: at most 5",
        ),
        (
            "plan mean.settings --piece 1x --span 1",
            "--piece 1x is not lengths as 64x20,32",
        ),
        (
            "plan mean.settings --piece 1x99999999 --span 1",
            "over 65536 calls",
        ),
        ("plan mean.settings --piece 1", "--span is missing"),
        (
            "plan mean.settings --calls odd",
            "odd:2: 64 is not a piece and a span",
        ),
        (
            "plan mean.settings --calls odd --span 1",
            "--calls has pieces and spans already",
        ),
    ] {
        let plan = scratch.gauge(arguments);
        assert_eq!(plan.status.code(), Some(2), "{arguments}");
        assert!(told(&plan).contains(said), "{arguments}: {}", told(&plan));
        assert!(plan.stdout.is_empty(), "{arguments}");
    }
}
