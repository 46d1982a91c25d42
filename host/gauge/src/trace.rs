//! The points of a series as they are drawn: as they stand where they are few, as a filled band where a column of the drawing has many.

/// What is drawn of a series, in places of the drawing.
pub enum Trace {
    /// A line from point to point.
    Line(Vec<(f64, f64)>),
    /// The outline of a band: the highest place of each column from left to right, then the lowest back.
    Band(Vec<(f64, f64)>),
}

/// The trace of points that stand from left to right, those that are finite. A band is as dark wherever it is, so many waves in a column make no stripes, and no peak is lost.
pub fn trace(points: &[(f64, f64)], columns: usize) -> Trace {
    let finite = points.iter().filter(|point| point.1.is_finite()).copied();
    let points: Vec<(f64, f64)> = finite.collect();
    if points.len() <= 2 * columns {
        return Trace::Line(points);
    }
    let column = |point: &(f64, f64)| point.0.floor();
    let columns: Vec<(f64, f64, f64)> = points
        .chunk_by(|a, b| column(a) == column(b))
        .map(|inside| {
            let heights = || inside.iter().map(|point| point.1);
            let top = heights().fold(f64::INFINITY, f64::min);
            let bottom = heights().fold(f64::NEG_INFINITY, f64::max);
            (column(&inside[0]) + 0.5, top, bottom)
        })
        .collect();
    let tops = columns.iter().map(|(x, top, _)| (*x, *top));
    let bottoms = columns.iter().rev().map(|(x, _, bottom)| (*x, *bottom));
    Trace::Band(tops.chain(bottoms).collect())
}

/// Bars from left to right, those that touch or nearly touch as one.
pub fn joined(bars: &[(f64, f64)]) -> Vec<(f64, f64)> {
    let mut all: Vec<(f64, f64)> = Vec::new();
    for (from, to) in bars {
        match all.last_mut() {
            Some(last) if *from <= last.1 + 1.0 => last.1 = last.1.max(*to),
            _ => all.push((*from, *to)),
        }
    }
    all
}

#[cfg(test)]
mod tests {
    use super::*;

    #[test]
    fn few_points_are_a_line() {
        let points = [(0.0, 1.0), (1.0, f64::NAN), (2.0, 3.0)];
        let Trace::Line(line) = trace(&points, 2) else {
            panic!("a band");
        };
        assert_eq!(line, [(0.0, 1.0), (2.0, 3.0)]);
    }

    #[test]
    fn a_column_keeps_its_ends() {
        let points: Vec<(f64, f64)> = (0..1000)
            .map(|at| (f64::from(at) / 100.0, f64::from(at % 7)))
            .collect();
        let Trace::Band(band) = trace(&points, 10) else {
            panic!("a line");
        };
        assert_eq!(band.len(), 2 * 10);
        assert_eq!((band[0], band[19]), ((0.5, 0.0), (0.5, 6.0)));
        assert_eq!((band[9], band[10]), ((9.5, 0.0), (9.5, 6.0)));
    }

    #[test]
    fn bars_that_touch_are_one() {
        let bars = [(0.0, 1.0), (1.5, 1.5), (4.0, 9.0), (5.0, 6.0)];
        assert_eq!(joined(&bars), [(0.0, 1.5), (4.0, 9.0)]);
        assert_eq!(joined(&[]), []);
    }
}
