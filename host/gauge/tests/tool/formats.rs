//! CSV, WAV and 16-bit recordings are the samples that they hold; what is none is refused.

use crate::scratch::{Scratch, as_text, printed, told};

/// A WAV file of these samples, interleaved.
fn wav(channels: u16, bits: u16, rate: u32, samples: &[i32]) -> Vec<u8> {
    let width = bits / 8;
    let data: Vec<u8> = samples
        .iter()
        .flat_map(|sample| sample.to_le_bytes()[..usize::from(width)].to_vec())
        .collect();
    let mut bytes = b"RIFF".to_vec();
    bytes.extend((36 + data.len() as u32).to_le_bytes());
    bytes.extend(b"WAVEfmt \x10\0\0\0\x01\0");
    bytes.extend(channels.to_le_bytes());
    bytes.extend(rate.to_le_bytes());
    bytes.extend((rate * u32::from(channels * width)).to_le_bytes());
    bytes.extend((channels * width).to_le_bytes());
    bytes.extend(bits.to_le_bytes());
    bytes.extend(b"data");
    bytes.extend((data.len() as u32).to_le_bytes());
    bytes.extend(data);
    bytes
}

// Each samples as a level, through `one.settings`.
fn levels(scratch: &Scratch, arguments: &str) -> Vec<f32> {
    let run = scratch.gauge(&format!(
        "run --settings one.settings --out-format text {arguments}"
    ));
    assert!(run.status.success(), "{arguments}: {}", told(&run));
    let lines = printed(&run);
    lines.lines().map(|line| line.parse().unwrap()).collect()
}

fn refused(scratch: &Scratch, arguments: &str, said: &str) {
    let run = scratch.gauge(&format!("run --settings one.settings {arguments}"));
    assert_eq!(run.status.code(), Some(2), "{arguments}");
    assert!(told(&run).starts_with(said), "{arguments}: {}", told(&run));
    assert!(run.stdout.is_empty());
}

// Point 6: a WAV file is read as one, or refused, and never converted as numbers.
#[test]
fn a_wav_file_is_read_or_refused() {
    let scratch = Scratch::with_one("wav");
    let samples = [16384, -16384, 8192, 0];
    for bits in [16, 24, 32] {
        scratch.write("a.wav", wav(1, bits, 8000, &samples));
        assert_eq!(levels(&scratch, "a.wav"), [0.5, -0.5, 0.25, 0.0]);
        assert_eq!(
            levels(&scratch, "a.wav --format wav"),
            [0.5, -0.5, 0.25, 0.0]
        );
        for format in ["raw", "raw16", "text", "csv"] {
            let said = "a.wav: a WAV file; --format wav reads it\n";
            refused(&scratch, &format!("a.wav --format {format}"), said);
        }
    }
}

#[test]
fn what_a_wav_file_lacks_is_told() {
    let scratch = Scratch::with_one("lacks");
    let samples = [16384, -16384, 8192, 0];
    scratch.write("b.wav", wav(2, 24, 8000, &samples));
    assert_eq!(levels(&scratch, "b.wav --channel 2"), [-0.5, 0.0]);
    refused(
        &scratch,
        "b.wav",
        "b.wav: 2 channels; --channel 1 to 2 says which\n",
    );
    refused(
        &scratch,
        "b.wav --channel 3",
        "b.wav: no channel 3; there are 2\n",
    );
    let whole = wav(1, 16, 8000, &samples);
    scratch.write("cut.wav", &whole[..whole.len() - 2]);
    refused(
        &scratch,
        "cut.wav --out levels.txt",
        "cut.wav: ends at byte 50, 2 bytes before its head says\n",
    );
    scratch.write("a.txt", "5\n");
    refused(&scratch, "a.txt --format wav", "a.txt: not a WAV file");
    refused(
        &scratch,
        "a.txt --channel 1",
        "gauge: --channel is for a WAV file; ",
    );
}

#[test]
fn a_column_of_csv_is_read() {
    let scratch = Scratch::with_one("csv");
    scratch.write("a.csv", "\u{feff}time,\"level, cell 3\",t\r\n2026-11-16T13:00:00Z,16384,20.5\r\n2026-11-16T13:00:01Z,-8192.0,20.5\r\n");
    assert_eq!(
        levels(&scratch, "a.csv --format csv --column 2"),
        [0.5, -0.25]
    );
    let by_name = scratch.shell("gauge run --settings one.settings a.csv --format csv --column 'level, cell 3' --rate 4 2>/dev/null");
    assert_eq!(printed(&by_name), "seconds,level\n0,0.5\n0.25,-0.25\n");
    let said = "a.csv:1: 3 columns (time, level, cell 3, t); --column";
    refused(&scratch, "a.csv --format csv", said);
    let said = "a.csv:1: no column tme; did you mean time?; they are time, ";
    refused(&scratch, "a.csv --format csv --column tme", said);
    let said = "a.csv:2: 20.5 is not a whole number of 32 bits\n";
    refused(&scratch, "a.csv --format csv --column t", said);
    refused(&scratch, "a.csv", "a.csv:1: time,");
    assert_eq!(levels(&scratch, "a.csv --column 2"), [0.5, -0.25]);
    scratch.write("a.txt", "5\n");
    refused(
        &scratch,
        "a.txt --format text --column 2",
        "gauge: --column is for --format csv; ",
    );
    scratch.write("b.csv", "t;level\n0,5;16384,0\n");
    assert_eq!(levels(&scratch, "b.csv --format csv --column level"), [0.5]);
}

// The moments are those that levels tell of: a mean of four samples is 1.5 samples late.
#[test]
fn csv_levels_have_their_moments() {
    let scratch = Scratch::new("moments");
    scratch.write("mean.settings", "stages = 1\nr = 4\n");
    scratch.write("samples.txt", as_text(&[16384; 8]));
    let run = "run --settings mean.settings samples.txt --out-format csv";
    assert_eq!(
        printed(&scratch.gauge(run)),
        "sample,level\n1.5,0.5\n5.5,0.5\n"
    );
    let run = format!("{run} --rate 2");
    assert_eq!(
        printed(&scratch.gauge(&run)),
        "seconds,level\n0.75,0.5\n2.75,0.5\n"
    );
    scratch.write("a.wav", wav(1, 16, 4, &[16384; 8]));
    let run = "run --settings mean.settings a.wav --out-format csv --piece 1";
    assert_eq!(
        printed(&scratch.gauge(run)),
        "seconds,level\n0.375,0.5\n1.375,0.5\n"
    );
}

#[test]
fn sixteen_bits_are_read_as_they_are_and_more_are_shifted() {
    let scratch = Scratch::with_one("raw16");
    scratch.write("a.raw", b"\0\x40\0\xc0");
    assert_eq!(levels(&scratch, "a.raw --format raw16"), [0.5, -0.5]);
    scratch.write("b.wav", wav(1, 24, 8000, &[1 << 22, -(1 << 22)]));
    assert_eq!(levels(&scratch, "b.wav --shift 8"), [0.5, -0.5]);
}

// Point 9: a line without end is not read into memory.
#[test]
fn a_line_without_end_is_refused() {
    let scratch = Scratch::with_one("endless");
    let run = scratch.shell("timeout 20 bash -c 'ulimit -v 1000000; exec \"$GAUGE\" run --settings one.settings --in /dev/zero'");
    assert_eq!(run.status.code(), Some(2), "{}", told(&run));
    assert!(told(&run).starts_with("/dev/zero:1: over 65536 bytes without an end of line; "));
    assert!(told(&run).ends_with("--format raw\n"));
}
