//! A parked line, written from 02, request 6 and from the table of docs/parking.md: the bytes that a line is parked to, and what any bytes answer. It shares nothing with the port.

use crate::field::Fields;
use crate::fir_decimator::{self, MOST_TAPS};
use crate::gauge_line::Line;
use crate::hbf_stream;
use crate::polyphase_resamp;
use crate::refusals::STATE;
use crate::tap_sheet::{self, Rule};

/// "another entry count or an entry of the wrong length"
pub const PARKED: u32 = 21;

/// "a tap sheet of seven entries"; of request 13, "parked in eight entries".
pub const ENTRIES: usize = 7;
pub const THINNED_ENTRIES: usize = 8;

/// The numbers of the settings entry, in their order: eight of 16 bits, two of 32.
pub const SETTINGS_BYTES: usize = 24;

/// Taps of each half-band stage, from the highest rate.
const STAGE_TAPS: [usize; 5] = [3, 4, 5, 10, 23];

/// Delays of a stage stand so far apart in a state.
const STAGE_PLACES: usize = 96;

/// "Floats go by their bits", all NaNs being one.
const NAN: u32 = 0x7fc0_0000;

pub type Entries = Vec<Vec<u8>>;

/// Bytes one number behind the other.
#[derive(Default)]
struct Written(Vec<u8>);

impl Written {
    fn short(mut self, number: u64) -> Self {
        self.0.extend((number as u16).to_le_bytes());
        self
    }

    fn word(mut self, number: u32) -> Self {
        self.0.extend(number.to_le_bytes());
        self
    }

    fn shorts(self, numbers: &[i16]) -> Self {
        let short = |to: Self, number: &i16| to.short(*number as u64);
        numbers.iter().fold(self, short)
    }

    fn words(self, numbers: &[i32]) -> Self {
        let word = |to: Self, number: &i32| to.word(*number as u32);
        numbers.iter().fold(self, word)
    }

    fn float(self, number: f32) -> Self {
        match number.is_nan() {
            true => self.word(NAN),
            false => self.word(number.to_bits()),
        }
    }

    fn floats(self, numbers: &[f32]) -> Self {
        numbers.iter().fold(self, |to, number| to.float(*number))
    }
}

/// "A part that is off is parked as zeros, settings too."
fn with_zeros(line: &Line) -> Line {
    let mut line = line.clone();
    if line.fir.tap_count == 0 {
        line.fir = fir_decimator::State::zeros();
    }
    if line.half_band.depth == 0 {
        line.half_band = hbf_stream::State::zeros();
    }
    if line.resampler.phases == 0 {
        line.resampler = polyphase_resamp::State::zeros();
    }
    line
}

fn settings(line: &Line) -> Written {
    let Line {
        cic,
        fir,
        half_band,
        resampler,
        cuts,
        ..
    } = line;
    Written::default()
        .short(cic.stages)
        .short(cic.r)
        .short(fir.tap_count)
        .short(fir.factor)
        .short(half_band.depth)
        .short(resampler.phases)
        .short(resampler.taps)
        .short((resampler.straight != 0).into())
        .float(resampler.step)
        .word(*cuts)
}

fn half_band(state: &hbf_stream::State) -> Written {
    let stages = STAGE_TAPS.iter().enumerate().take(state.depth as usize);
    stages.fold(Written::default(), |to, (stage, taps)| {
        let delays = &state.delays[stage * STAGE_PLACES..][..4 * taps];
        to.short(state.counts[stage])
            .float(state.held[stage])
            .floats(delays)
    })
}

/// "N neighbours for each halving of the factor, rounded down, that leaves at least 1"
fn neighbours(stages: u64, r: u64) -> u64 {
    stages * u64::from(r.checked_ilog2().unwrap_or(0))
}

/// The entries of a line that row 15 does not name: "the CIC one empty, the last holding its place and then N neighbours".
pub fn entries(line: &Line) -> Entries {
    let line = with_zeros(line);
    let (cic, fir, resampler) = (&line.cic, &line.fir, &line.resampler);
    let (stages, taps) = (cic.stages as usize, fir.tap_count as usize);
    let (cells, phase_taps) = (resampler.phases * resampler.taps, resampler.taps as usize);
    let counter = Written::default().short(cic.sample_counter);
    let (thinner, last) = match line.thinning {
        0 => {
            let integrators = counter.words(&cic.integrators[..stages]);
            (integrators.words(&cic.combs[..stages]), None)
        }
        _ => {
            let count = neighbours(cic.stages, cic.r) as usize;
            let place = counter.words(&line.neighbours[..count]);
            (Written::default(), Some(place))
        }
    };
    let first = [
        settings(&line),
        thinner,
        Written::default().shorts(&fir.taps[..taps]),
        Written::default()
            .short(fir.wait)
            .shorts(&fir.delay[..taps]),
        half_band(&line.half_band),
        Written::default().floats(&resampler.prototype[..cells as usize]),
        Written::default()
            .float(resampler.mu)
            .floats(&resampler.delay[..phase_taps]),
    ];
    let all = first.into_iter().chain(last);
    all.map(|entry| entry.0).collect()
}

/// The sheet of such entries, without gaps, and with the mark of request 9, which "new sheets set, parked ones too".
pub fn sheet(entries: &[Vec<u8>]) -> Vec<u8> {
    let count = u64::from(tap_sheet::MARK) + entries.len() as u64;
    let mut sheet = Written::default().short(count);
    let mut offset = 2 + 8 * entries.len();
    for entry in entries {
        sheet = sheet.word(offset as u32).word(entry.len() as u32);
        offset += entry.len();
    }
    [sheet.0, entries.concat()].concat()
}

/// The bytes that the line is parked to.
pub fn parked(line: &Line) -> Vec<u8> {
    sheet(&entries(line))
}

/// Numbers one behind the other.
struct Read<'a>(&'a [u8]);

impl Read<'_> {
    fn number<const BYTES: usize>(&mut self) -> [u8; BYTES] {
        let (front, rest) = self.0.split_first_chunk().expect("an entry of its length");
        self.0 = rest;
        *front
    }

    fn short(&mut self) -> u64 {
        u16::from_le_bytes(self.number()).into()
    }

    fn word(&mut self) -> u32 {
        u32::from_le_bytes(self.number())
    }

    fn shorts(&mut self, places: &mut [i16]) {
        places.fill_with(|| self.short() as i16);
    }

    fn words(&mut self, places: &mut [i32]) {
        places.fill_with(|| self.word() as i32);
    }

    fn float(&mut self) -> f32 {
        f32::from_bits(self.word())
    }

    fn floats(&mut self, places: &mut [f32]) {
        places.fill_with(|| self.float());
    }
}

/// A line of which only the settings entry was read.
fn with_settings(entry: &[u8]) -> Line {
    let mut from = Read(entry);
    let mut line = Line::zeros();
    line.cic.stages = from.short();
    line.cic.r = from.short();
    line.fir.tap_count = from.short();
    line.fir.factor = from.short();
    line.half_band.depth = from.short();
    line.resampler.phases = from.short();
    line.resampler.taps = from.short();
    line.resampler.straight = from.short();
    line.resampler.step = from.float();
    line.cuts = from.word();
    line
}

/// "Each entry is exactly as long as the settings entry's numbers make it, even where such a number is past its limit; a depth over 5 counts as 5."
/// How many there are says what thins.
pub fn lengths(settings: &[u8], count: usize) -> Vec<u64> {
    let line = with_settings(settings);
    let (stages, taps) = (line.cic.stages, line.fir.tap_count);
    let (phases, phase_taps) = (line.resampler.phases, line.resampler.taps);
    let depth = line.half_band.depth.min(5) as usize;
    let stage_bytes = |taps: &usize| 2 + 4 + 4 * 4 * *taps as u64;
    let (thinner, last) = match count {
        THINNED_ENTRIES => (0, Some(2 + 4 * neighbours(stages, line.cic.r))),
        _ => (2 + 2 * 4 * stages, None),
    };
    let first = [
        SETTINGS_BYTES as u64,
        thinner,
        2 * taps,
        2 + 2 * taps,
        STAGE_TAPS[..depth].iter().map(stage_bytes).sum(),
        4 * phases * phase_taps,
        4 + 4 * phase_taps,
    ];
    first.into_iter().chain(last).collect()
}

/// Whether a state has places for what the numbers make used: where not, an opening refuses them.
fn has_places(line: &Line, most_taps: u64) -> bool {
    line.cic.stages <= 8
        && line.cic.r <= 4096
        && line.fir.tap_count <= most_taps
        && line.half_band.depth <= 5
        && line.resampler.phases <= 64
        && line.resampler.taps <= 16
}

/// The fields as they stand in entries of the right lengths; every other place is zero.
fn fields(mut line: Line, entries: &[Vec<u8>]) -> Line {
    let (stages, taps) = (line.cic.stages as usize, line.fir.tap_count as usize);
    let (cells, phase_taps) = (
        line.resampler.phases * line.resampler.taps,
        line.resampler.taps as usize,
    );
    let entry = |k: usize| Read(&entries[k]);
    line.thinning = u64::from(entries.len() == THINNED_ENTRIES);
    let mut from = entry(if line.thinning == 0 { 1 } else { 7 });
    line.cic.sample_counter = from.short();
    if line.thinning == 0 {
        from.words(&mut line.cic.integrators[..stages]);
        from.words(&mut line.cic.combs[..stages]);
    } else {
        let count = neighbours(line.cic.stages, line.cic.r) as usize;
        from.words(&mut line.neighbours[..count]);
    }
    let mut from = entry(2);
    from.shorts(&mut line.fir.taps[..taps]);
    let mut from = entry(3);
    line.fir.wait = from.short();
    from.shorts(&mut line.fir.delay[..taps]);
    let mut from = entry(4);
    for (stage, taps) in STAGE_TAPS
        .iter()
        .enumerate()
        .take(line.half_band.depth as usize)
    {
        line.half_band.counts[stage] = from.short();
        line.half_band.held[stage] = from.float();
        from.floats(&mut line.half_band.delays[stage * STAGE_PLACES..][..4 * taps]);
    }
    let mut from = entry(5);
    from.floats(&mut line.resampler.prototype[..cells as usize]);
    let mut from = entry(6);
    line.resampler.mu = from.float();
    from.floats(&mut line.resampler.delay[..phase_taps]);
    line
}

/// The entries of a sheet: 16 and 17.
fn found(rule: Rule, sheet: &[u8]) -> Result<Entries, u32> {
    let part = |&(offset, size): &(u64, u64)| sheet[offset as usize..][..size as usize].to_vec();
    let pairs = tap_sheet::entries_by(rule, sheet)?;
    Ok(pairs.iter().map(part).collect())
}

/// The line of a sheet: "21 when a parked sheet has another entry count or an entry of the wrong length, after 16 and 17; then 15 as for any state, or for fields that no parking
/// writes": those that come out otherwise when the line that was read is parked again.
pub fn taken_up(sheet: &[u8]) -> Result<Line, u32> {
    let panel = Panel {
        most_taps: MOST_TAPS,
        rule: Rule::Present,
        has_neighbours: true,
    };
    panel.taken_up(sheet)
}

/// What a panel knows: how many taps its FIR holds (request 7), the rule of its sheets (request 9), and whether neighbours may thin (request 13).
pub struct Panel {
    pub most_taps: u64,
    pub rule: Rule,
    pub has_neighbours: bool,
}

impl Panel {
    /// "an older panel given a longer one answers 15, never a shortened filter"; "A reader made before this answers a new sheet with 16".
    pub fn taken_up(&self, sheet: &[u8]) -> Result<Line, u32> {
        let found = found(self.rule, sheet)?;
        let is_known = match found.len() {
            ENTRIES => true,
            count => count == THINNED_ENTRIES && self.has_neighbours,
        };
        if !is_known || found[0].len() != SETTINGS_BYTES {
            return Err(PARKED);
        }
        let sizes = found.iter().map(|entry| entry.len() as u64);
        if !sizes.eq(lengths(&found[0], found.len())) {
            return Err(PARKED);
        }
        let line = with_settings(&found[0]);
        if !has_places(&line, self.most_taps) {
            return Err(STATE);
        }
        let line = fields(line, &found);
        if line.refusal() != 0 || entries(&line) != found {
            return Err(STATE);
        }
        Ok(line)
    }
}
