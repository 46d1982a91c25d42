//! Tap sheets: what is packed comes out again and opens the same line; a sheet that is refused is told at its pair.

use crate::scratch::{Scratch, as_text, printed, samples, told};

// A sheet of taps, an empty entry and a prototype.
fn with_sheet(test: &str) -> Scratch {
    let scratch = Scratch::new(test);
    scratch.write("line.prototype", "1 0.5 0 0.5\n");
    scratch.write("none", "");
    let pack =
        "sheet pack --taps smooth.taps --bytes none --prototype line.prototype --out works.sheet";
    let packed = scratch.gauge(pack);
    assert!(packed.status.success(), "{}", told(&packed));
    scratch
}

#[test]
fn what_is_packed_is_listed_and_comes_out_again() {
    let scratch = with_sheet("sheet-pack");
    let listed = "3 entries in 50 bytes, new form\nentry  offset   bytes    taps  prototype\n    0      26       8       4          2\n    1      34       0       0          0\n    2      34      16       8          4\n";
    assert_eq!(printed(&scratch.gauge("sheet list works.sheet")), listed);
    let taps = scratch.gauge("sheet unpack works.sheet --entry 0 --as taps");
    assert_eq!(printed(&taps), "8192\n8192\n8192\n8192\n");
    let prototype = scratch.gauge("sheet unpack works.sheet --entry 2 --as prototype");
    assert_eq!(printed(&prototype), "1\n0.5\n0\n0.5\n");
    let bytes = scratch.gauge("sheet unpack works.sheet --entry 0 --out taps.bin");
    assert!(bytes.status.success());
    assert_eq!(scratch.read("taps.bin"), [0, 32].repeat(4));
    let none = scratch.gauge("sheet pack --out none.sheet");
    assert!(none.status.success());
    assert_eq!(scratch.read("none.sheet"), [0, 128]);
}

// A sheet from before request 9, whose empty entry stands behind the full one of equal offset: both keep their bytes, and change their numbers.
#[test]
fn an_old_sheet_is_converted() {
    let scratch = Scratch::new("sheet-convert");
    let old = b"\x03\0\x1a\0\0\0\x02\0\0\0\x1a\0\0\0\0\0\0\0\x1c\0\0\0\x02\0\0\0abcd";
    scratch.write("old.sheet", old);
    let listed = printed(&scratch.gauge("sheet list old.sheet"));
    assert!(listed.starts_with("3 entries in 30 bytes, old form\n"));
    let converted = scratch.gauge("sheet convert old.sheet new.sheet");
    assert!(converted.status.success(), "{}", told(&converted));
    let said = "gauge: entry 1 is entry 0 now\ngauge: entry 0 is entry 1 now\n";
    assert_eq!(told(&converted), said);
    let new = b"\x03\x80\x1a\0\0\0\0\0\0\0\x1a\0\0\0\x02\0\0\0\x1c\0\0\0\x02\0\0\0abcd";
    assert_eq!(scratch.read("new.sheet"), new);
    let listed = printed(&scratch.gauge("sheet list new.sheet"));
    assert!(listed.starts_with("3 entries in 30 bytes, new form\n"));
    let again = scratch.gauge("sheet convert new.sheet again.sheet");
    assert_eq!(
        (told(&again), scratch.read("again.sheet")),
        (String::new(), new.to_vec())
    );
}

#[test]
fn a_line_takes_taps_and_prototype_from_a_sheet() {
    let scratch = with_sheet("sheet-line");
    let settings = String::from_utf8(scratch.read("line.settings")).unwrap();
    let sheet = settings
        .replace("smooth.taps", "works.sheet#0 # the works\u{2019} taps")
        .replace("1 0.5 0 0.5", "works.sheet#2");
    scratch.write("sheet.settings", sheet);
    scratch.write("in.txt", as_text(&samples()));
    let plain = scratch.gauge("run --settings line.settings in.txt");
    let sheet = scratch.gauge("run --settings sheet.settings in.txt");
    assert!(sheet.status.success(), "{}", told(&sheet));
    assert_eq!(printed(&sheet), printed(&plain));
    assert!(!sheet.stdout.is_empty());
}

#[test]
fn what_is_wrong_is_told() {
    let scratch = with_sheet("sheet-faults");
    let mut bytes = scratch.read("works.sheet");
    bytes[18] = 33;
    scratch.write("bad.sheet", &bytes);
    scratch.write("odd", "abc");
    scratch.gauge("sheet pack --bytes odd --out odd.sheet");
    scratch.write(
        "odd.settings",
        "stages=1\nr=1\nfactor=1\ntaps = odd.sheet#0\n",
    );
    for (arguments, said) in [
        (
            "sheet list bad.sheet",
            "bad.sheet: refusal 17: entry 2 at 33 begins inside entry 0 (26 to 34)",
        ),
        (
            "sheet unpack works.sheet --entry 3",
            "works.sheet: refusal 18: no entry 3; it has 3 entries",
        ),
        (
            "sheet unpack works.sheet --entry 1 --as taps",
            "works.sheet: entry 1: it is empty",
        ),
        (
            "explain odd.settings",
            "odd.sheet: entry 0: 3 bytes are no numbers of 2 bytes each",
        ),
        (
            "sheet pack --taps smooth.taps --out smooth.taps",
            "gauge: --out smooth.taps is the file of --taps, smooth.taps; it stays as it is",
        ),
        ("sheet pick", "gauge: no command sheet pick"),
        (
            "sheet convert works.sheet",
            "gauge: sheet convert takes a sheet and the file for the new one",
        ),
        (
            "sheet convert works.sheet works.sheet",
            "gauge: the new sheet works.sheet is the file of the sheet, works.sheet; it stays as it is",
        ),
        (
            "sheet convert bad.sheet new.sheet",
            "bad.sheet: refusal 17: entry 2 at 33 begins inside entry 0 (26 to 34)",
        ),
        (
            "sheet",
            "gauge: sheet without list, pack, unpack or convert",
        ),
    ] {
        let run = scratch.gauge(arguments);
        assert_eq!(run.status.code(), Some(2), "{arguments}");
        assert!(told(&run).starts_with(said), "{arguments}: {}", told(&run));
    }
}

/// Any bytes as a sheet: no panic, an answer or one line.
#[test]
fn damaged_sheets_are_answered() {
    let scratch = with_sheet("sheet-damage");
    let whole = scratch.read("works.sheet");
    let mut seed = 1_u64;
    for _ in 0..60 {
        let mut bytes = whole.clone();
        for _ in 0..3 {
            seed = seed.wrapping_mul(6_364_136_223_846_793_005).wrapping_add(1);
            let at = (seed >> 33) as usize % bytes.len();
            bytes[at] = (seed >> 56) as u8;
        }
        bytes.truncate((seed >> 40) as usize % (2 * bytes.len()));
        scratch.write("any.sheet", &bytes);
        let run = scratch.gauge("sheet list any.sheet");
        let lines = told(&run).lines().count();
        assert!(matches!(
            (run.status.code(), lines),
            (Some(0), 0) | (Some(2), 1)
        ));
    }
}
