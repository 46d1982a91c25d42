//! Why an opening is refused, in the numbers that were given and those that are allowed.

use crate::line_file::LineFile;
use gauge_line::Refusal;
use gauge_line::limits::{
    LEAST_PHASES, LEAST_STEP, MOST_DEPTH, MOST_FACTOR, MOST_GAIN_BITS, MOST_PHASE_TAPS,
    MOST_PHASES, MOST_STAGES, MOST_STEP, MOST_TAPS,
};

/// The setting that a refusal of the opening is about.
pub fn name_of(refusal: Refusal, file: &LineFile) -> &'static str {
    let phases = LEAST_PHASES..=MOST_PHASES;
    match refusal {
        Refusal::Stages => "stages",
        Refusal::FirFactor => "factor",
        Refusal::Taps => "taps",
        Refusal::Depth => "depth",
        Refusal::Phases if phases.contains(&file.settings.phases) => "phase_taps",
        Refusal::Phases => "phases",
        Refusal::Prototype => file.order.setting(),
        Refusal::Step => "step",
        _ => "r",
    }
}

/// The refusal with its number and name, and the limit that is passed.
pub fn reason(refusal: Refusal, file: &LineFile) -> String {
    let settings = &file.settings;
    let why = match refusal {
        Refusal::GainBits => {
            let (r, stages) = (settings.r, settings.stages);
            // An opening refuses larger ones before it comes to their power, which is at most 2^96.
            let gain = (r as u128).pow(stages as u32);
            format!("{r}^{stages} = {gain} is over 2^{MOST_GAIN_BITS}")
        }
        Refusal::PowerOfTwo => {
            // An opening refuses 0 and what is over 4,096 before that.
            let below = 1 << settings.r.ilog2();
            let above = 2 * below;
            format!("a power of two where neighbours thin, as {below} or {above}")
        }
        Refusal::Taps => format!("{} given, at most {MOST_TAPS}", file.taps.len()),
        Refusal::Prototype => {
            let given = file.prototype.len();
            wanted(given, settings.phases, settings.phase_taps)
        }
        _ => range(name_of(refusal, file)),
    };
    refused(refusal, &why)
}

/// A refusal with its number and name, and why.
pub fn refused(refusal: Refusal, why: &str) -> String {
    format!("refusal {}, {}: {why}", refusal.number(), refusal.name())
}

/// A prototype of another length than its phases and taps ask for.
pub fn wanted(given: usize, phases: usize, taps: usize) -> String {
    let wanted = phases * taps;
    format!("{given} given, {phases} × {taps} = {wanted} wanted")
}

/// The range of a setting that is one number.
pub fn range(name: &str) -> String {
    match name {
        "stages" => format!("1 to {MOST_STAGES}"),
        "depth" => format!("at most {MOST_DEPTH}"),
        "phases" => format!("{LEAST_PHASES} to {MOST_PHASES}, or 0 for no resampler"),
        "phase_taps" => format!("1 to {MOST_PHASE_TAPS}"),
        "step" => format!("1/{} to {MOST_STEP}", 1.0 / LEAST_STEP),
        _ => format!("1 to {MOST_FACTOR}"),
    }
}
