//! What a run took and made, for the line at its end.

use crate::begun::Begun;
use crate::fault::{Fault, tell};
use crate::line_file::LineFile;
use crate::range::{self, Range};
use gauge_line::Refusal;

/// Counts what a run takes and makes.
pub struct Tally {
    // The line's count of cut values when the run began, and now.
    cuts_before: u32,
    cuts: u32,
    // The samples of which every sum is exact.
    exact: Range,
    first_level: usize,
    samples: u64,
    // The least and the greatest sample.
    reach: (i32, i32),
    // How many samples left the exact range, and the first of them with its number, from 1.
    outside: u64,
    first_outside: Option<(u64, i32)>,
    levels: u64,
    least: f32,
    greatest: f32,
    not_finite: u64,
}

impl Tally {
    /// For a line that is so far.
    pub fn of(file: &LineFile, begun: &Begun) -> Result<Tally, Fault> {
        let (stages, r) = (file.settings.stages, file.settings.r);
        Ok(Tally {
            exact: range::exact(stages, r)
                .ok_or_else(|| Fault::file("the line", Refusal::GainBits))?,
            cuts_before: begun.cuts,
            cuts: begun.cuts,
            first_level: begun.first_level,
            samples: 0,
            reach: (i32::MAX, i32::MIN),
            outside: 0,
            first_outside: None,
            levels: 0,
            least: f32::INFINITY,
            greatest: f32::NEG_INFINITY,
            not_finite: 0,
        })
    }

    /// The samples taken so far.
    pub fn samples(&self) -> u64 {
        self.samples
    }

    /// Counts samples that the line took, after which it has cut so many values.
    pub fn take(&mut self, samples: &[i32], cuts: u32) {
        let (least, greatest) = reach(samples);
        self.reach = (self.reach.0.min(least), self.reach.1.max(greatest));
        let (low, high) = self.exact;
        if i64::from(least) < low || i64::from(greatest) > high {
            self.take_outside(samples);
        }
        self.samples += samples.len() as u64;
        self.cuts = cuts;
    }

    fn take_outside(&mut self, samples: &[i32]) {
        let (low, high) = self.exact;
        let outside = |sample: &&i32| !(low..=high).contains(&i64::from(**sample));
        self.outside += samples.iter().filter(outside).count() as u64;
        if let (None, Some(at)) = (self.first_outside, samples.iter().position(|s| outside(&s))) {
            self.first_outside = Some((self.samples + at as u64 + 1, samples[at]));
        }
    }

    /// Counts levels that the line writes.
    pub fn write(&mut self, levels: &[f32]) {
        self.levels += levels.len() as u64;
        for level in levels {
            self.least = self.least.min(*level);
            self.greatest = self.greatest.max(*level);
            self.not_finite += u64::from(!level.is_finite());
        }
    }

    /// Tells all of it on standard error: one line, and one for each thing to beware of.
    pub fn tell(&self) {
        tell(format_args!("gauge: {}", self.summary()));
        for warning in self.warnings() {
            tell(format_args!("gauge: warning: {warning}"));
        }
    }

    fn summary(&self) -> String {
        let samples = counted(self.samples, "sample");
        if self.levels == 0 {
            let first = self.first_level;
            return format!("{samples}, no levels; the first comes with sample {first}");
        }
        let levels = counted(self.levels, "level");
        let cut = self.cut_values();
        let (least, greatest) = (self.least, self.greatest);
        format!("{samples}, {levels} from {least} to {greatest}, {cut} cut to 16 bits")
    }

    // Those of this run. The line's count holds at its end.
    fn cut_values(&self) -> String {
        let cut = self.cuts - self.cuts_before;
        match self.cuts {
            u32::MAX => format!("{cut} values or more"),
            _ => counted(cut.into(), "value"),
        }
    }

    fn warnings(&self) -> Vec<String> {
        let mut all = Vec::new();
        if self.cuts > self.cuts_before {
            let cut = self.cut_values();
            let hint = shift_hint(self.reach);
            all.push(format!(
                "{cut} past the ends of 16 bits, held at -32768 and 32767{hint}"
            ));
        }
        if let Some((at, sample)) = self.first_outside {
            let ((low, high), count) = (self.exact, counted(self.outside, "sample"));
            all.push(format!("{count} outside {low} to {high}, the first at {at}: {sample}; sums of such samples may leave 32 bits and come round, and then levels are wrong"));
        }
        if self.not_finite > 0 {
            let count = counted(self.not_finite, "level");
            all.push(format!(
                "{count} not finite: the prototype's numbers are too large"
            ));
        }
        all
    }
}

// The least and the greatest sample.
fn reach(samples: &[i32]) -> (i32, i32) {
    samples
        .iter()
        .fold((i32::MAX, i32::MIN), |(least, greatest), sample| {
            (least.min(*sample), greatest.max(*sample))
        })
}

// "no values", "1 value", "2 values".
fn counted(count: u64, what: &str) -> String {
    match count {
        0 => format!("no {what}s"),
        1 => format!("1 {what}"),
        _ => format!("{count} {what}s"),
    }
}

// The shift that brings samples over 16 bits within them.
fn shift_hint((least, greatest): (i32, i32)) -> String {
    let shift = (0..=16).find(|shift| {
        let fits = |sample: i32| i16::try_from(sample >> shift).is_ok();
        fits(least) && fits(greatest)
    });
    match shift {
        Some(shift) if shift > 0 => format!(
            "; samples are from {least} to {greatest}, and --shift {shift} brings them within"
        ),
        _ => String::new(),
    }
}

#[cfg(test)]
mod tests {
    use super::*;

    fn tally(settings: &str, samples: &[i32], cuts: u32, levels: &[f32]) -> Tally {
        let file = LineFile::parse("f", settings).unwrap();
        let mut tally = Tally::of(&file, &Begun::opened(&file)).unwrap();
        tally.take(samples, cuts);
        tally.write(levels);
        tally
    }

    #[test]
    fn a_quiet_run_has_one_line() {
        let tally = tally("stages=1\nr=2", &[1, 2, 3], 0, &[0.5]);
        let said = "3 samples, 1 level from 0.5 to 0.5, no values cut to 16 bits";
        assert_eq!(tally.summary(), said);
        assert!(tally.warnings().is_empty());
    }

    #[test]
    fn a_count_that_holds_is_told_as_such() {
        let tally = tally("stages=1\nr=1", &[1], u32::MAX, &[0.5]);
        let end = ", 4294967295 values or more cut to 16 bits";
        assert!(tally.summary().ends_with(end));
    }

    #[test]
    fn no_levels_are_told() {
        let tally = tally("stages=1\nr=20\ndepth=1", &[1, 2, 3], 0, &[]);
        let said = "3 samples, no levels; the first comes with sample 40";
        assert_eq!(tally.summary(), said);
    }

    #[test]
    fn what_to_beware_of_is_told() {
        let cut = tally("stages=1\nr=1", &[8_388_607], 1, &[1.0]).warnings();
        assert_eq!(cut.len(), 1);
        assert!(cut[0].starts_with("1 value past") && cut[0].contains("--shift 8 "));
        let outside = tally("stages=3\nr=64", &[8191, -8193, 9000], 0, &[0.0]).warnings();
        assert_eq!(outside.len(), 1);
        assert!(outside[0].starts_with("2 samples outside -8192 to 8191, the first at 2: -8193;"));
        let infinite = tally("stages=1\nr=1", &[1], 0, &[f32::NAN]).warnings();
        assert!(infinite[0].starts_with("1 level not finite"));
    }
}
