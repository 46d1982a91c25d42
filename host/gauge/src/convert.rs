//! Feeding a line until every level is out.

use crate::fault::Fault;
use gauge_line::{Line, next_piece};

/// Feeds a piece through spans until all of it is taken and every level that it makes due is written; each filled front of the span goes to `levels`.
pub fn feed_piece(
    line: &mut Line,
    mut piece: &[i32],
    span: &mut [f32],
    mut levels: impl FnMut(&[f32]) -> Result<(), Fault>,
) -> Result<(), Fault> {
    loop {
        let moved = line
            .feed(piece, span)
            .map_err(|refusal| Fault::file("the line", refusal))?;
        levels(&span[..moved.written])?;
        // A place that stays unwritten says that every sample was taken and no level is due.
        if moved.written < span.len() {
            return Ok(());
        }
        piece = next_piece(piece, moved.taken, &[]);
    }
}

/// The levels of a whole recording, and the samples, from 0, with which a value was cut to 16 bits.
pub fn levels_and_cuts(line: &mut Line, samples: &[i32]) -> Result<(Vec<f32>, Vec<usize>), Fault> {
    let (mut levels, mut cuts) = (Vec::new(), Vec::new());
    for (at, sample) in samples.iter().enumerate() {
        let before = line.cuts();
        levels.extend(levels_of(line, &[*sample])?);
        if line.cuts() > before {
            cuts.push(at);
        }
    }
    Ok((levels, cuts))
}

/// The levels of a whole recording.
pub fn levels_of(line: &mut Line, samples: &[i32]) -> Result<Vec<f32>, Fault> {
    let mut all = Vec::new();
    feed_piece(line, samples, &mut [0.0; 4096], |levels| {
        all.extend(levels);
        Ok(())
    })?;
    Ok(all)
}
