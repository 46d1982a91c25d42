//! Feeds a buffer of cell samples through a gauge line in pieces and prints the levels that come out, as examples/c/levels.c does.

use gauge_line::{Line, Moved, Refusal, Settings, next_piece};

const SAMPLES: usize = 1500;
const PIECE: usize = 200;
const SPAN: usize = 3;

// Every fourth sum of three CIC stages; a FIR of four equal taps and every second output; two half-band stages; then two levels for every three, drawn between neighbours by
// a resampler of two phases.
fn open_line() -> Result<Line, Refusal> {
    let settings = Settings {
        stages: 3,
        r: 4,
        factor: 2,
        depth: 2,
        phases: 2,
        phase_taps: 2,
        step: 1.5,
        ..Settings::default()
    };
    Line::open(settings, &[8192; 4], &[1.0, 0.5, 0.0, 0.5])
}

fn print_feed(piece: &[i32], moved: Moved, levels: &[f32]) {
    print!("{:3} of {:3}:", moved.taken, piece.len());
    for level in &levels[..moved.written] {
        print!(" {level:.6}");
    }
    println!();
}

fn main() -> Result<(), Refusal> {
    // A level that rises, with a ripple on it.
    let samples: Vec<i32> = (0..SAMPLES as i32)
        .map(|i| 8 * i + (i % 5 - 2) * 300)
        .collect();
    let mut pieces = samples.chunks(PIECE);
    let mut line = open_line()?;
    let mut levels = [0.0; SPAN];
    let mut piece = pieces.next().unwrap_or(&[]);
    loop {
        let moved = line.feed(piece, &mut levels)?;
        print_feed(piece, moved, &levels);
        // The stream has ended when an empty piece was fed and left a place of the span unwritten.
        if piece.is_empty() && moved.written < SPAN {
            return Ok(());
        }
        let waiting = if moved.taken == piece.len() {
            pieces.next().unwrap_or(&[])
        } else {
            &[]
        };
        piece = next_piece(piece, moved.taken, waiting);
    }
}
