//! What a settings file says: settings, taps and prototype, and the line that they open.

use crate::entries::{Entries, Entry};
use crate::fault::Fault;
use crate::lay::laid;
use crate::nearest::did_you_mean;
use crate::numbers::{List, Number, listed};
use crate::options::RATES;
use crate::reason::{name_of, range, reason};
use crate::text::{read_small, strange, without_mark};
use gauge_line::{Line, Phase, Refusal, Settings, Thinning, prototype_by_tap};
use std::path::{Path, PathBuf};
use std::str::FromStr;

/// In which order the numbers of a prototype stand in a settings file.
#[derive(Clone, Copy, Debug, PartialEq, Eq)]
pub enum Prototype {
    /// As the resampler reads them: tap t of phase p at t × phases + p.
    Laid,
    /// As filter design gives them: `prototype = natural ..`.
    Natural,
    /// Phase by phase, tap t of phase p at p × phase_taps + t: `prototype_rows = ..`.
    Rows,
}

impl Prototype {
    /// The setting that has the numbers.
    pub fn setting(self) -> &'static str {
        match self {
            Prototype::Laid | Prototype::Natural => "prototype",
            Prototype::Rows => "prototype_rows",
        }
    }
}

/// What a settings file says. A setting that is missing is 0, which turns its part off or is refused.
pub struct LineFile {
    /// The numbers.
    pub settings: Settings,
    /// FIR taps, in 32768ths.
    pub taps: Vec<i16>,
    /// The resampler's prototype, laid.
    pub prototype: Vec<f32>,
    /// The order in which the file has the prototype.
    pub order: Prototype,
    /// Samples a second, where the file says it: times and frequencies are told by them.
    pub rate: Option<f64>,
    /// The settings file and those that it names.
    pub files: Vec<PathBuf>,
    entries: Entries,
}

impl LineFile {
    /// Reads a settings file and the files that it names.
    pub fn read(file: impl AsRef<Path>) -> Result<LineFile, Fault> {
        let file = file.as_ref();
        let text = read_small(file).map_err(|why| Fault::file(file, why))?;
        LineFile::parse(file, text)
    }

    /// What a text says; the files that it names are beside `file`.
    pub fn parse(file: impl AsRef<Path>, text: impl AsRef<[u8]>) -> Result<LineFile, Fault> {
        let (file, text) = (file.as_ref(), text.as_ref());
        let text = without_mark(text).map_err(|what| Fault::file(file, what))?;
        let entries = Entries::parse(file, text)?;
        let settings = Settings {
            stages: number(&entries, "stages", "a whole number")?,
            r: number(&entries, "r", "a whole number")?,
            factor: number(&entries, "factor", "a whole number")?,
            depth: number(&entries, "depth", "a whole number")?,
            phases: number(&entries, "phases", "a whole number")?,
            phase_taps: number(&entries, "phase_taps", "a whole number")?,
            phase: either(&entries, "phase", PHASES)?,
            step: number(&entries, "step", "a number")?,
            thinning: either(&entries, "thinning", THINNINGS)?,
        };
        let (order, prototype) = in_order(&entries)?;
        let taps = entries.get("taps").map(|entry| &entry.value[..]);
        let taps: List<i16> = list(&entries, "taps", taps)?;
        let prototype: List<f32> = list(&entries, order.setting(), prototype)?;
        let files = [Some(file.to_path_buf()), taps.file, prototype.file];
        Ok(LineFile {
            prototype: as_read(prototype.numbers, order, &settings),
            settings,
            taps: taps.numbers,
            order,
            rate: rate(&entries)?,
            files: files.into_iter().flatten().collect(),
            entries,
        })
    }

    /// What a line was opened with that no settings file describes: a parked one, or one that is designed.
    pub fn parked(
        file: &Path,
        settings: Settings,
        taps: Vec<i16>,
        prototype: Vec<f32>,
    ) -> LineFile {
        LineFile {
            settings,
            taps,
            prototype,
            order: Prototype::Laid,
            rate: None,
            files: vec![file.to_path_buf()],
            entries: Entries::none(file),
        }
    }

    /// The refusal of the opening, where it is refused.
    pub fn refusal(&self) -> Option<Refusal> {
        Line::open(self.settings, &self.taps, &self.prototype).err()
    }

    /// Opens the line. A refusal is told at the setting that it is about.
    pub fn open(&self) -> Result<Line, Fault> {
        Line::open(self.settings, &self.taps, &self.prototype).map_err(|refusal| {
            let name = name_of(refusal, self);
            self.entries.fault(name, reason(refusal, self))
        })
    }

    /// The settings that are set although the part that would look at them is off.
    pub fn warnings(&self) -> Vec<Fault> {
        let mut all = Vec::new();
        if self.taps.is_empty() {
            all.extend(self.entries.unseen(&["factor"], "taps"));
        }
        if self.settings.phases == 0 {
            let names = ["phase_taps", "phase", self.order.setting(), "step"];
            all.extend(self.entries.unseen(&names, "phases"));
        }
        all
    }
}

// How the resampler reads its prototype, and what thins.
const PHASES: [(&str, Phase); 2] = [("wrapped", Phase::Wrapped), ("straight", Phase::Straight)];
const THINNINGS: [(&str, Thinning); 2] = [
    ("integrators", Thinning::Integrators),
    ("neighbours", Thinning::Neighbours),
];

// A setting of two words, the first where it is not set.
fn either<T: Copy>(entries: &Entries, name: &str, words: [(&str, T); 2]) -> Result<T, Fault> {
    let Some(entry) = entries.get(name) else {
        return Ok(words[0].1);
    };
    let text = entry.text();
    let found = words.iter().find(|(word, _)| *word == &*text);
    found.map(|(_, setting)| *setting).ok_or_else(|| {
        let [one, other] = words.map(|(word, _)| word);
        let hint = did_you_mean(&text, &[one, other]);
        let what = format!("not {one} or {other}{}{hint}", strange(&text));
        entries.fault(name, what)
    })
}

// Samples a second, where they are set.
fn rate(entries: &Entries) -> Result<Option<f64>, Fault> {
    let Some(entry) = entries.get("rate") else {
        return Ok(None);
    };
    let rate = entry.text().parse().ok();
    let rate = rate.filter(|rate| RATES.contains(rate));
    let wrong = || entries.fault("rate", "not a number of hertz above 0");
    rate.map(Some).ok_or_else(wrong)
}

// The order of a prototype, and its numbers or the name of their file. There is one prototype.
fn in_order(entries: &Entries) -> Result<(Prototype, Option<&[u8]>), Fault> {
    match (entries.get("prototype"), entries.get("prototype_rows")) {
        (None, None) => Ok((Prototype::Laid, None)),
        (None, Some(rows)) => Ok((Prototype::Rows, Some(&rows.value))),
        (Some(prototype), None) => Ok(laid_or_natural(prototype)),
        (Some(prototype), Some(_)) => {
            let what = format!("prototype is set on line {} too", prototype.line);
            Err(entries.fault("prototype_rows", what))
        }
    }
}

fn laid_or_natural(entry: &Entry) -> (Prototype, Option<&[u8]>) {
    match entry.value.strip_prefix(b"natural") {
        Some(rest) if rest.first().is_none_or(u8::is_ascii_whitespace) => {
            (Prototype::Natural, Some(rest.trim_ascii()))
        }
        _ => (Prototype::Laid, Some(&entry.value)),
    }
}

// The numbers as the resampler reads them: tap t of phase p at t × phases + p, in straight phase as filter design gives them. Those of another length are left for the
// opening to refuse.
fn as_read(numbers: Vec<f32>, order: Prototype, settings: &Settings) -> Vec<f32> {
    let (phases, taps) = (settings.phases, settings.phase_taps);
    match order {
        Prototype::Laid => numbers,
        Prototype::Natural if settings.phase == Phase::Straight => numbers,
        Prototype::Natural => laid(&numbers, phases, taps),
        Prototype::Rows => {
            let mut prototype = numbers.clone();
            prototype_by_tap(phases, taps, &numbers, &mut prototype).map_or(numbers, |_| prototype)
        }
    }
}

// The numbers of a setting, none where it is not set.
fn list<T: Number>(entries: &Entries, name: &str, value: Option<&[u8]>) -> Result<List<T>, Fault> {
    let none = List {
        numbers: Vec::new(),
        file: None,
    };
    value.map_or(Ok(none), |value| listed(entries, name, value))
}

// The number of a setting, 0 where it is not set.
fn number<T: FromStr + Default>(entries: &Entries, name: &str, kind: &str) -> Result<T, Fault> {
    let Some(entry) = entries.get(name) else {
        return Ok(T::default());
    };
    let text = entry.text();
    text.parse().map_err(|_| {
        let over = text.len() > 19 && text.bytes().all(|byte| byte.is_ascii_digit());
        let what = match (&*text, over) {
            ("", _) => "no value".to_string(),
            (_, true) => "over 2^64".to_string(),
            _ => format!("not {kind}{}", strange(&text)),
        };
        entries.fault(name, format_args!("{what}; {}", range(name)))
    })
}

#[cfg(test)]
mod tests {
    use super::*;

    fn fault(text: &str) -> String {
        let read = LineFile::parse("f", text).and_then(|file| file.open());
        read.unwrap_err().to_string()
    }

    #[test]
    fn each_setting_reaches_its_member() {
        let text = "# a line\nstages = 3\nr = 8 # factor\nthinning = neighbours\nfactor=7\ntaps = 11 12\n\ndepth = 2\nphases = 4\nphase_taps = 1\nphase = straight\nstep = 1.5\nprototype = 0.1 0.2 0.3 0.4\n";
        let file = LineFile::parse("f", text).unwrap();
        let settings = Settings {
            stages: 3,
            r: 8,
            factor: 7,
            depth: 2,
            phases: 4,
            phase_taps: 1,
            phase: Phase::Straight,
            step: 1.5,
            thinning: Thinning::Neighbours,
        };
        assert_eq!(file.settings, settings);
        assert_eq!(file.taps, [11, 12]);
        assert_eq!(file.prototype, [0.1, 0.2, 0.3, 0.4]);
        assert_eq!(file.order, Prototype::Laid);
        assert!(file.open().is_ok());
        assert!(file.warnings().is_empty());
    }

    #[test]
    fn a_rate_is_samples_a_second() {
        let rate = |text: &str| LineFile::parse("f", text).map(|file| file.rate);
        assert_eq!(rate("rate = 0.5"), Ok(Some(0.5)));
        assert_eq!(rate("r = 1"), Ok(None));
        for wrong in ["", "0", "-1", "x", "inf", "nan"] {
            let said = rate(&format!("rate = {wrong}")).unwrap_err().to_string();
            assert!(said.ends_with(": not a number of hertz above 0"), "{said}");
        }
    }

    #[test]
    fn a_natural_prototype_is_laid() {
        let text = "phases = 2\nphase_taps = 2\nprototype = natural 0 .5 1 .25\n";
        let file = LineFile::parse("f", text).unwrap();
        assert_eq!(file.order, Prototype::Natural);
        assert_eq!(file.prototype, [1.0, 0.5, 0.0, 0.25]);
        let straight = format!("{text}phase = straight\n");
        let file = LineFile::parse("f", straight).unwrap();
        assert_eq!(file.prototype, [0.0, 0.5, 1.0, 0.25]);
        let file = LineFile::parse("f", "prototype = naturally.taps");
        assert!(file.err().unwrap().to_string().contains("No such file"));
    }

    #[test]
    fn a_prototype_in_rows_is_read_by_tap() {
        let text =
            "stages=1\nr=1\nphases=3\nphase_taps=2\nstep=1\nprototype_rows = 0 1  .1 1.1  .2 1.2\n";
        let file = LineFile::parse("f", text).unwrap();
        assert_eq!(file.order, Prototype::Rows);
        assert_eq!(file.prototype, [0.0, 0.1, 0.2, 1.0, 1.1, 1.2]);
        assert!(file.open().is_ok());
        let short = text.replace(" 1.2", "");
        assert_eq!(
            fault(&short),
            "f:6: prototype_rows = 0 1  .1 1.1  .2: refusal 13, Prototype: 5 given, 3 × 2 = 6 wanted"
        );
        let both = format!("{text}prototype = 1\n");
        assert!(fault(&both).ends_with("prototype is set on line 7 too"));
        let off = LineFile::parse("f", "stages=1\nr=1\nprototype_rows = 1").unwrap();
        let told: Vec<String> = off.warnings().iter().map(Fault::to_string).collect();
        let said = "f:3: warning: prototype_rows is not looked at without phases";
        assert_eq!(told, [said]);
    }

    // Settings, and what is told of them. 4, 7 to 10 and 15 are refusals of other calls.
    const REFUSED: [(&str, &str); 11] = [
        (
            "stages = 9\nr = 2",
            "f:1: stages = 9: refusal 1, Stages: 1 to 8",
        ),
        (
            "stages = 1\nr = 0",
            "f:2: r = 0: refusal 2, Factor: 1 to 4096",
        ),
        (
            "stages = 9\nr = 48\nthinning = neighbours",
            "f:1: stages = 9: refusal 1, Stages: 1 to 8",
        ),
        (
            "stages = 8\nr = 48\nthinning = neighbours",
            "f:2: r = 48: refusal 23, PowerOfTwo: a power of two where neighbours thin, as 32 or 64",
        ),
        (
            "stages = 8\nr = 15",
            "f:2: r = 15: refusal 3, GainBits: 15^8 = 2562890625 is over 2^31",
        ),
        (
            "stages=1\nr=1\ntaps=1",
            "f:3: no factor: refusal 5, FirFactor: 1 to 4096",
        ),
        (
            "stages=1\nr=1\ndepth=7",
            "f:3: depth = 7: refusal 11, Depth: at most 5",
        ),
        (
            "stages=1\nr=1\nphases=1",
            "f:3: phases = 1: refusal 12, Phases: 2 to 64, or 0 for no resampler",
        ),
        (
            "stages=1\nr=1\nphase_taps=17\nphases=2",
            "f:3: phase_taps = 17: refusal 12, Phases: 1 to 16",
        ),
        (
            "stages=1\nr=1\nprototype=1 2 3\nphases=2\nphase_taps=2",
            "f:3: prototype = 1 2 3: refusal 13, Prototype: 3 given, 2 × 2 = 4 wanted",
        ),
        (
            "stages=1\nr=1\nprototype=1 0\nphases=2\nphase_taps=1\nstep=nan",
            "f:6: step = nan: refusal 14, Step: 1/64 to 64",
        ),
    ];

    #[test]
    fn each_refusal_is_told_at_its_setting_with_its_limit() {
        for (text, said) in REFUSED {
            assert_eq!(fault(text), said);
        }
        let many = format!("stages=1\nr=1\nfactor=1\ntaps={}", "1 ".repeat(129));
        assert!(fault(&many).ends_with("refusal 6, Taps: 129 given, at most 128"));
    }

    #[test]
    fn what_is_no_setting_is_told() {
        assert_eq!(fault("stages"), "f:1: stages is not name = value");
        assert!(fault("\ngain = 1").starts_with("f:2: no setting gain; they are stages, r, "));
        assert_eq!(fault("r = 1\nr = 2"), "f:2: r is set on line 1 too");
        assert_eq!(
            fault("r = -1"),
            "f:1: r = -1: not a whole number; 1 to 4096"
        );
        assert_eq!(fault(""), "f:1: no stages: refusal 1, Stages: 1 to 8");
        assert_eq!(
            fault("phase = strait"),
            "f:1: phase = strait: not wrapped or straight; did you mean straight?"
        );
        assert_eq!(
            fault("thinning = neighbors"),
            "f:1: thinning = neighbors: not integrators or neighbours; did you mean neighbours?"
        );
    }

    #[test]
    fn what_is_set_for_nothing_is_warned_of() {
        let text = "stages=1\nr=1\nfactor=2\nstep=1.5\n";
        let file = LineFile::parse("f", text).unwrap();
        let told: Vec<String> = file.warnings().iter().map(Fault::to_string).collect();
        let said = [
            "f:3: warning: factor is not looked at without taps",
            "f:4: warning: step is not looked at without phases",
        ];
        assert_eq!(told, said);
    }
}
