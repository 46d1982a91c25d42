//! `gauge explain`: what a settings file makes.

use crate::fault::Fault;
use crate::job::opened;
use crate::lay::laid;
use crate::line_file::LineFile;
use crate::options::Options;
use crate::ramp::{Unevenness, unevenness};
use crate::range::{self, Range, steady_levels};
use crate::rate::Unit;
use crate::section::{HALF_BAND, Section, first_level, sections, whole};
use crate::target::Target;
use gauge_line::passband::{PASSBANDS, STAGE_TAPS};
use gauge_line::{CicDecimator, Line, Phase, Refusal, hbf_dec_reach, limits};
use std::cmp::Ordering;
use std::ffi::OsString;
use std::fmt::Write;

// With more gain bits the greatest sum of 32 bits is, scaled, below 16-bit full scale.
const FULL_SCALE_GAIN_BITS: u32 = 16;
// A sample whose level is told where the line can take it.
const HALF_SCALE: i64 = 16384;
// Rises that are off by less than this part of an even one pass for even.
const EVEN: f64 = 0.05;

/// Prints what the settings file of the arguments makes.
pub fn explain(arguments: &[OsString]) -> Result<(), Fault> {
    let options = Options::parse(arguments, &["--settings", "--rate"], "--settings")?;
    let rate = options.rate()?;
    let (file, _) = opened(&options)?;
    let unit = Unit::of(rate.or(file.rate));
    let name = options.needed("--settings")?.to_string_lossy();
    let mut out = Target::create("-")?;
    out.write(explanation(&name, &file, unit)?.as_bytes())?;
    out.finish()
}

/// What a settings file that was not refused makes, in words.
pub fn explanation(name: &str, file: &LineFile, unit: Unit) -> Result<String, Fault> {
    let refused = |refusal| Fault::file(name, refusal);
    let sections = sections(file).map_err(refused)?;
    let cic = CicDecimator::new(file.settings.stages, file.settings.r).map_err(refused)?;
    let bits = cic.gain_bits().map_err(refused)?;
    let mut text = format!(
        "{name}: a state of {} bytes, {bits} gain bits of at most {}\n\n",
        size_of::<Line>(),
        limits::MOST_GAIN_BITS
    );
    add_table(&mut text, &sections, unit);
    add_start(&mut text, file, &sections, unit);
    add_ranges(&mut text, file, &sections, bits);
    add_rounding(&mut text, file.taps.len());
    add_levels(&mut text, file)?;
    if file.settings.phases > 0 {
        add_ramp(&mut text, file).map_err(refused)?;
    }
    add_passband(&mut text, file, &sections, unit);
    Ok(text)
}

// Writing to a String does not fail.
macro_rules! add {
    ($text:expr, $($format:tt)*) => {
        writeln!($text, $($format)*).expect("a text grows")
    };
}

fn add_table(text: &mut String, sections: &[Section], unit: Unit) {
    add!(
        text,
        "{:18}{:>16}{:>18}{:>16}{:>10}",
        "section",
        "samples a value",
        format!("values a {}", unit.name()),
        format!("delay, {}s", unit.name()),
        "gain"
    );
    for section in sections {
        add_row(text, section, unit);
    }
    add_row(text, &whole(sections), unit);
    add!(text, "");
    add!(
        text,
        "Delay: how late a slow change shows. Gain: what it is multiplied by, where no sum leaves 32 bits and no value is cut to 16."
    );
}

fn add_row(text: &mut String, section: &Section, unit: Unit) {
    // Weights that sum to 0 have no centre.
    let delay = if section.delay.is_finite() {
        unit.time(section.delay)
    } else {
        "none".to_string()
    };
    add!(
        text,
        "{:18}{:>16}{:>18}{delay:>16}{:>10.4}",
        section.name,
        // Without the digits that an f32 step leaves behind.
        (section.samples_per_value * 1e4).round() / 1e4,
        unit.frequency(1.0 / section.samples_per_value),
        section.gain
    );
}

fn add_start(text: &mut String, file: &LineFile, sections: &[Section], unit: Unit) {
    let (first, reach) = (first_level(file), whole(sections).reach);
    add!(
        text,
        "The first level comes with sample {first}{}. Up to sample {reach}{} levels still weigh zeros from before the start.",
        unit.within(first as f64),
        unit.within(reach)
    );
}

// The samples that a line can take.
fn add_ranges(text: &mut String, file: &LineFile, sections: &[Section], bits: u32) {
    let (stages, r) = (file.settings.stages, file.settings.r);
    let uncut = range::uncut(stages, r, &file.taps);
    let ranges = [
        ("in any order: every sum is exact", range::exact(stages, r)),
        ("steady: the sum keeps to 32 bits", range::steady(stages, r)),
        ("steady: and is not cut to 16 bits", uncut),
    ];
    add!(text, "");
    add!(text, "{:36}{:>12}{:>12}", "samples", "least", "greatest");
    for (what, range) in ranges {
        let (least, greatest) = range.unwrap_or_default();
        add!(text, "{what:36}{least:>12}{greatest:>12}");
    }
    let steady = range::steady(stages, r).unwrap_or_default();
    add!(text, "{}", cut_from(steady, uncut.unwrap_or_default()));
    if bits > FULL_SCALE_GAIN_BITS {
        add!(
            text,
            "Warning: {bits} gain bits are over {FULL_SCALE_GAIN_BITS}, so no sample reaches 16-bit full scale: behind the {} levels stay within {} of 0.",
            sections[0].name,
            2f64.powi(FULL_SCALE_GAIN_BITS as i32 - bits as i32)
        );
    }
}

// What rounding takes from a value: each product of the FIR is rounded down by itself, so T of them lose up to 32767 T of 32768 steps. The scaled sum loses less
// than a step before that, whatever the settings.
fn add_rounding(text: &mut String, taps: usize) {
    if taps == 0 {
        return;
    }
    let steps = taps as f64 * 32767.0 / 32768.0;
    add!(
        text,
        "Rounding: the FIR's values are never above the exact ones, and below them by at most {steps:.4} steps of 16 bits, {:.6} of full scale.",
        steps / 32768.0
    );
}

// From which steady sample on values are cut, of those whose sum keeps to 32 bits.
fn cut_from((least, greatest): Range, (low, high): Range) -> String {
    let up = (high < greatest).then(|| format!("from {} up", high + 1));
    let down = (low > least).then(|| format!("from {} down", low - 1));
    let from: Vec<String> = [up, down].into_iter().flatten().collect();
    match from.is_empty() {
        true => "Values are cut of no steady sample whose sum keeps to 32 bits.".to_string(),
        false => format!("Values are cut of steady samples {}.", from.join(" and ")),
    }
}

// Levels of steady samples, as the line gives them.
fn add_levels(text: &mut String, file: &LineFile) -> Result<(), Fault> {
    let range = range::uncut(file.settings.stages, file.settings.r, &file.taps);
    add!(text, "");
    add!(
        text,
        "{:>20}   level, as the line gives it",
        "steady sample"
    );
    for sample in told(range.unwrap_or_default()) {
        let levels = steady_levels(file, sample as i32)?;
        add!(text, "{sample:>20}   {}", level_text(levels));
    }
    Ok(())
}

// A level, or the least and the greatest. Taps near the end of f32 can leave none.
fn level_text((low, high): (f32, f32)) -> String {
    match low.partial_cmp(&high) {
        Some(Ordering::Equal) => format!("{low}"),
        Some(Ordering::Less) => format!("{low} to {high}"),
        _ => "not a number".to_string(),
    }
}

// The steady samples whose levels are told: the ends of a range, and half scale where it is within.
fn told((least, greatest): Range) -> Vec<i64> {
    let half = Some(HALF_SCALE).filter(|half| (least..=greatest).contains(half));
    let mut told: Vec<i64> = [Some(least), half, Some(greatest)]
        .into_iter()
        .flatten()
        .collect();
    told.dedup();
    told
}

// How even the levels of a ramp are, and what is the matter where they are not.
fn add_ramp(text: &mut String, file: &LineFile) -> Result<(), Refusal> {
    let settings = &file.settings;
    let uneven = |prototype: &[f32]| unevenness(settings, prototype);
    add!(text, "");
    let Some(off) = uneven(&file.prototype)? else {
        add!(
            text,
            "Ramp: the resampler's gain is 0 or past f32, so levels don't follow it."
        );
        return Ok(());
    };
    add!(
        text,
        "Ramp: the resampler's rises are off by at most {:.1} % of an even one, by {:.1} % on average.",
        100.0 * off.worst,
        100.0 * off.mean
    );
    if off.worst > EVEN {
        let matter = match settings.phase {
            Phase::Wrapped => {
                let natural = laid(&file.prototype, settings.phases, settings.phase_taps);
                let whole = (f64::from(settings.step) * settings.phases as f64).fract() == 0.0;
                matter(off, uneven(&natural)?, whole)
            }
            Phase::Straight => matter_of_straight(settings.step),
        };
        add!(text, "Warning: {matter}");
    }
    Ok(())
}

// In straight phase: the order of the prototype where the step is whole, else the step.
fn matter_of_straight(step: f32) -> String {
    if step.fract() == 0.0 {
        "straight phase reads a prototype in its natural order, one place of each row at a whole step. One that is laid for wrapped phase has other taps there, or none.".to_string()
    } else {
        "straight phase reads each row forwards while time goes backwards, so only whole steps are even. Wrapped phase with a laid prototype is for the others.".to_string()
    }
}

// What makes levels uneven: the order of the prototype, where it would be better as a natural one that is laid; else the phases that wrap.
fn matter(off: Unevenness, natural: Option<Unevenness>, whole: bool) -> String {
    match natural {
        Some(laid) if laid.mean < off.mean / 2.0 => format!(
            "taken as `natural` and laid, h[(t + 1) * phases - p] at t * phases + p, this prototype would be off by {:.1} %, by {:.1} % on average.",
            100.0 * laid.worst,
            100.0 * laid.mean
        ),
        _ if whole => {
            "a level that falls on a value is drawn on from phases 0 and 1, as if the prototype were straight from value to value.".to_string()
        }
        _ => {
            "past the last phase the reading wraps to phase 0, which belongs one value later. A step of whole 1 / phases reads nothing between phases.".to_string()
        }
    }
}

fn add_passband(text: &mut String, file: &LineFile, sections: &[Section], unit: Unit) {
    let depth = file.settings.depth;
    let Some(figures) = depth.checked_sub(1).and_then(|at| PASSBANDS.get(at)) else {
        return;
    };
    let taps = |depth: usize| STAGE_TAPS[..depth].iter().map(usize::to_string);
    let taps = |depth| taps(depth).collect::<Vec<String>>().join(", ");
    add!(text, "");
    add!(
        text,
        "Depth {depth}: half-band stages of {} taps, out of {}. Of the cascade's output rate{}:",
        taps(depth),
        taps(limits::MOST_DEPTH),
        output_rate(sections, unit)
    );
    add!(
        text,
        "  worst alias into 0 to 0.4    {:.1} dB",
        figures.worst_alias
    );
    add!(
        text,
        "  aliases below -140 dB up to  {:.3}",
        figures.held_to
    );
    add!(
        text,
        "  level at 0.4                 {:.1} dB",
        figures.at_end
    );
    if let Ok(reach) = hbf_dec_reach(depth) {
        add!(
            text,
            "  an output follows from       {reach} values at the cascade's input"
        );
    }
    if depth < limits::MOST_DEPTH {
        add!(
            text,
            "Only depth {} holds 140 dB up to 0.4. Here faster waves come back as slow ones below 0.4, at worst as strong as the first figure says.",
            limits::MOST_DEPTH
        );
    }
}

// The rate of the half-band cascade in hertz, where that of the samples is known.
fn output_rate(sections: &[Section], unit: Unit) -> String {
    let cascade = sections.iter().find(|section| section.name == HALF_BAND);
    match (unit, cascade) {
        (Unit::Second(_), Some(cascade)) => {
            format!(" of {} Hz", unit.frequency(1.0 / cascade.samples_per_value))
        }
        _ => String::new(),
    }
}

#[cfg(test)]
mod tests {
    use super::*;

    const FULL: &str = "stages = 3\nr = 4\ntaps = 8192 8192 8192 8192\nfactor = 2\ndepth = 2\nphases = 2\nphase_taps = 2\nprototype = 1 0.5 0 0.5\nstep = 1.5\n";
    const PLAIN: &str = "stages = 2\nr = 5\n";

    fn explained(settings: &str, unit: Unit) -> String {
        let file = LineFile::parse("f", settings).unwrap();
        explanation("f", &file, unit).unwrap()
    }

    #[test]
    fn each_part_of_the_explanation_is_there() {
        let text = explained(FULL, Unit::Sample);
        assert!(text.starts_with("f: a state of 7200 bytes, 6 gain bits of at most 31\n"));
        assert!(text.contains("worst alias into 0 to 0.4    -15.0 dB"));
        assert!(explained(&FULL.replace("1.5", "0.1"), Unit::Sample).contains(" 3.2 "));
        assert!(!explained(PLAIN, Unit::Sample).contains("alias"));
        assert!(!explained(PLAIN, Unit::Sample).contains("Ramp"));
    }

    #[test]
    fn what_rounding_takes_is_told() {
        let text = explained(FULL, Unit::Sample);
        assert!(text.contains("by at most 3.9999 steps of 16 bits, 0.000122 of full scale."));
        assert!(!explained(PLAIN, Unit::Sample).contains("Rounding"));
    }

    #[test]
    fn a_rate_gives_seconds_and_hertz() {
        let text = explained(FULL, Unit::Second(64.0));
        assert!(text.contains("values a second") && text.contains("delay, seconds"));
        assert!(text.contains("comes with sample 40 (0.625 s)."));
        assert!(text.contains("output rate of 2 Hz:"));
    }

    #[test]
    fn full_scale_out_of_reach_is_told() {
        assert!(
            explained("stages = 3\nr = 64\n", Unit::Sample)
                .contains("levels stay within 0.25 of 0")
        );
        assert!(!explained("stages = 2\nr = 256\n", Unit::Sample).contains("Warning"));
    }

    #[test]
    fn a_prototype_in_natural_order_is_told() {
        let natural = "stages=1\nr=1\nphases=4\nphase_taps=2\nstep=0.75\nprototype=0 0.25 0.5 0.75 1 0.75 0.5 0.25\n";
        assert!(
            explained(natural, Unit::Sample).contains("this prototype would be off by 0.0 %, ")
        );
        let laid = natural
            .replace("0 0.25 0.5 0.75 1", "1 0.75 0.5 0.25 0")
            .replace("0 0.75 0.5 0.25", "0 0.25 0.5 0.75");
        let text = explained(&laid, Unit::Sample);
        assert!(text.contains("off by at most 0.0 %") && !text.contains("Warning"));
        let curved = laid
            .replace("1 0.75 0.5 0.25 0 0.25", "1 0.9 0.5 0.1 0 0.1")
            .replace("0.5 0.75", "0.5 0.9");
        assert!(explained(&curved, Unit::Sample).contains("drawn on from phases 0 and 1"));
        assert!(
            explained(&laid.replace("step=0.75", "step=0.7"), Unit::Sample)
                .contains("the reading wraps")
        );
        assert!(
            explained(
                &laid.replace("0.25 0 0.25 0.5", "0.25 0 -2.5 -0.75"),
                Unit::Sample
            )
            .contains("gain is 0")
        );
    }
}
