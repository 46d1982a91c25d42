//! Bisection.

/// The least number below `end` for which something holds that then holds for all that follow; `end` where it holds for none.
pub fn least(end: usize, holds: impl Fn(usize) -> bool) -> usize {
    let (mut low, mut high) = (0, end);
    while low < high {
        let middle = low.midpoint(high);
        match holds(middle) {
            true => high = middle,
            false => low = middle + 1,
        }
    }
    low
}
