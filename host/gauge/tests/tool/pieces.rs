//! How a recording is cut and written down changes no level.

use crate::scratch::{Scratch, as_text, samples, told};

const CUTTINGS: [&str; 5] = [
    "--piece 1 --span 1",
    "--piece 1",
    "--span=1",
    "--piece 7 --span 3",
    "--piece 900",
];

#[test]
fn every_cutting_gives_the_same_levels() {
    let scratch = Scratch::new("cuttings");
    scratch.write("samples.txt", as_text(&samples()));
    let whole = scratch.gauge("run --settings line.settings --in samples.txt");
    assert!(whole.status.success() && whole.stdout.len() > 100);
    for cutting in CUTTINGS {
        let run = format!("run --settings line.settings samples.txt {cutting}");
        assert_eq!(scratch.gauge(&run), whole, "{cutting}");
    }
}

#[test]
fn text_and_raw_are_the_same_levels() {
    let scratch = Scratch::new("formats");
    let bytes: Vec<u8> = samples().into_iter().flat_map(i32::to_le_bytes).collect();
    scratch.write("samples.txt", as_text(&samples()));
    scratch.write("samples.raw", bytes);
    let text = scratch
        .gauge("run --settings line.settings --in samples.txt")
        .stdout;
    let raw = scratch
        .gauge("run --settings line.settings --in samples.raw --format raw")
        .stdout;
    let mixed = "run --settings line.settings --in samples.raw --format raw --out-format text";
    assert_eq!(scratch.gauge(mixed).stdout, text);
    let read: Vec<u8> = String::from_utf8(text)
        .unwrap()
        .lines()
        .flat_map(|line| line.parse::<f32>().unwrap().to_le_bytes())
        .collect();
    assert_eq!(read, raw);
}

#[test]
fn no_samples_give_no_levels() {
    let scratch = Scratch::new("none");
    let run = scratch.gauge("run --settings line.settings");
    assert!(run.status.success() && run.stdout.is_empty());
    assert_eq!(
        told(&run),
        "gauge: no samples, no levels; the first comes with sample 40\n"
    );
    let plot = scratch.gauge("plot --settings line.settings --out none.svg");
    assert!(plot.status.success());
    assert!(scratch.read("none.svg").ends_with(b"</svg>\n"));
}
