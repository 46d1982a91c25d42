//! What each depth of a half-band cascade holds off.
//!
//! A cascade of depth d runs the first d half-band stages of M = 3, 4, 5, 10, 23 taps, as the Rust original does. The long last stage is what makes the passband wide, so only
//! depth 5 holds 140 dB up to 0.4 of the output rate. Computed from the taps, with frequencies in parts of the cascade's output rate:
//!
//! | depth | rate divided by | worst alias into 0 to 0.4 | aliases below −140 dB up to | level at 0.4 |
//! |---|---|---|---|---|
//! | 1 | 2 | −12.9 dB | 0.037 | −2.2 dB |
//! | 2 | 4 | −15.0 dB | 0.074 | −1.9 dB |
//! | 3 | 8 | −16.6 dB | 0.130 | −1.5 dB |
//! | 4 | 16 | −28.0 dB | 0.260 | −0.4 dB |
//! | 5 | 32 | −143.0 dB | 0.400 | 0.0 dB |
//!
//! Of the 98 dB cascade, whose stages have M = 2, 3, 3, 6, 15 taps:
//!
//! | depth | rate divided by | worst alias into 0 to 0.4 | aliases below −98 dB up to | level at 0.4 |
//! |---|---|---|---|---|
//! | 1 | 2 | −11.2 dB | 0.036 | −2.8 dB |
//! | 2 | 4 | −13.9 dB | 0.073 | −2.4 dB |
//! | 3 | 8 | −13.8 dB | 0.123 | −2.2 dB |
//! | 4 | 16 | −21.3 dB | 0.246 | −0.9 dB |
//! | 5 | 32 | −98.8 dB | 0.400 | 0.0 dB |

use crate::limits::MOST_DEPTH;

/// Taps of the half-band stages, one side of each filter, in the order in which a decimating cascade runs them. In [`hbf_tap_table`](crate::hbf_tap_table) they stand the other way round.
pub const STAGE_TAPS: [usize; MOST_DEPTH] = [3, 4, 5, 10, 23];

/// Figures of one depth; frequencies in parts of the cascade's output rate.
#[derive(Clone, Copy, Debug, PartialEq)]
pub struct Passband {
    /// Worst alias into 0 to 0.4, in dB.
    pub worst_alias: f64,
    /// Aliases are below −140 dB up to here, −98 dB of the 98 dB cascade; rounded down.
    pub held_to: f64,
    /// Level at 0.4, in dB.
    pub at_end: f64,
}

const fn figures(worst_alias: f64, held_to: f64, at_end: f64) -> Passband {
    Passband {
        worst_alias,
        held_to,
        at_end,
    }
}

/// For depth 1 to [`MOST_DEPTH`].
///
/// ```
/// // One half-band stage lets strong aliases through.
/// let figures = gauge_line::passband::PASSBANDS[1 - 1];
/// assert_eq!(figures.worst_alias, -12.9);
/// assert_eq!(figures.held_to, 0.037);
/// ```
pub const PASSBANDS: [Passband; MOST_DEPTH] = [
    figures(-12.9, 0.037, -2.2),
    figures(-15.0, 0.074, -1.9),
    figures(-16.6, 0.130, -1.5),
    figures(-28.0, 0.260, -0.4),
    figures(-143.0, 0.400, 0.0),
];

/// Taps of the 98 dB stages, in the order in which a decimating cascade runs them. In [`hbf_tap_table_98`](crate::hbf_tap_table_98) they stand the other way round.
pub const STAGE_TAPS_98: [usize; MOST_DEPTH] = [2, 3, 3, 6, 15];

/// Of the [98 dB cascade](crate::HbfDecCascade98), for depth 1 to [`MOST_DEPTH`].
///
/// ```
/// let figures = gauge_line::passband::PASSBANDS_98[5 - 1];
/// assert_eq!(figures.worst_alias, -98.8);
/// assert_eq!(figures.held_to, 0.400);
/// ```
pub const PASSBANDS_98: [Passband; MOST_DEPTH] = [
    figures(-11.2, 0.036, -2.8),
    figures(-13.9, 0.073, -2.4),
    figures(-13.8, 0.123, -2.2),
    figures(-21.3, 0.246, -0.9),
    figures(-98.8, 0.400, 0.0),
];
