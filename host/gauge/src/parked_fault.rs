//! Why a parked line is refused, in the fields that stand in it and those that are allowed.

use crate::parked::{NAMES, Numbers, Parked, Part, thinning_of};
use crate::reason::{name_of, reason};
use crate::sheet::entries;
use std::path::Path;

// The one NaN that parking writes.
const NAN: u32 = 0x7fc0_0000;

/// Why the entries are none of a parked line: their number, or the first that is not as long as the settings make it.
pub fn wrong_length(parts: &[Part]) -> Option<String> {
    let (least, most) = (NAMES.len() - 1, NAMES.len());
    if !(least..=most).contains(&parts.len()) {
        let has = entries(parts.len());
        return Some(format!(
            "{has}, a parked line has {least}, or {most} where neighbours thin"
        ));
    }
    let told = |k: usize, wanted: usize| {
        let (name, has) = (NAMES[k], parts[k].bytes.len());
        format!("entry {k}, {name}, has {has} bytes, not {wanted}")
    };
    if parts[0].bytes.len() != 24 {
        return Some(told(0, 24));
    }
    let lengths = Numbers::of(parts[0]).lengths(thinning_of(parts));
    let wrong = (0..parts.len()).find(|&k| parts[k].bytes.len() != lengths[k])?;
    Some(told(wrong, lengths[wrong]) + " as its settings make it")
}

/// Which field of a line with entries of the right lengths is refused.
pub fn wrong_field(file: &Path, parked: &Parked) -> String {
    wrong_setting(file, parked)
        .or_else(|| wrong_number(parked))
        .or_else(|| left_over(parked))
        .or_else(|| wrong_float(parked))
        .unwrap_or_else(|| "its fields are none of a parked line".to_string())
}

// A setting that an opening refuses.
fn wrong_setting(file: &Path, parked: &Parked) -> Option<String> {
    let file = parked.line_file(file);
    let refusal = file.refusal()?;
    let name = name_of(refusal, &file);
    Some(format!("{name}: {}", reason(refusal, &file)))
}

// A number that is out of its range in a line.
fn wrong_number(parked: &Parked) -> Option<String> {
    let numbers = &parked.numbers;
    let (counter, wait, mu) = (parked.counter(), parked.wait(), parked.mu());
    if counter >= numbers.r {
        let r = numbers.r;
        return Some(format!("sample counter {counter} is not below r = {r}"));
    }
    let most = numbers.taps.max(numbers.factor);
    if numbers.taps > 0 && !(1..=most).contains(&wait) {
        return Some(format!("FIR wait {wait} is not 1 to {most}"));
    }
    if let Some((stage, held)) = parked.held().enumerate().find(|(_, held)| *held > 1) {
        return Some(format!(
            "half-band stage {stage} holds {held} values, at most 1"
        ));
    }
    let last = 1.0 + numbers.step;
    if numbers.phases > 0 && !(0.0..=last).contains(&mu) {
        return Some(format!("mu {mu} is not 0 to {last}"));
    }
    let straight = numbers.straight;
    (straight > 1).then(|| format!("phase {straight} is not 0 for wrapped or 1 for straight"))
}

// A number of a part that is off.
fn left_over(parked: &Parked) -> Option<String> {
    let numbers = &parked.numbers;
    let fir = [("factor", numbers.factor), ("wait", parked.wait())];
    let resampler = [
        ("taps", numbers.phase_taps),
        ("phase", numbers.straight),
        ("step", numbers.step.to_bits() as usize),
        ("mu", parked.mu().to_bits() as usize),
    ];
    let of = |part: &str, count: usize, fields: &[(&str, usize)]| {
        let set = fields.iter().find(|(_, number)| count == 0 && *number > 0);
        set.map(|(name, _)| format!("the {part} is off, and its {name} is not 0"))
    };
    of("FIR", numbers.taps, &fir).or_else(|| of("resampler", numbers.phases, &resampler))
}

// A float that is a NaN with other bits than parking writes.
fn wrong_float(parked: &Parked) -> Option<String> {
    let floats = float_places(parked);
    let bits = |&(k, at): &(usize, usize)| parked.parts[k].word(at);
    let is_strange = |place: &(usize, usize)| {
        let bits = bits(place);
        f32::from_bits(bits).is_nan() && bits != NAN
    };
    let found = floats.into_iter().find(is_strange)?;
    let (name, place) = (NAMES[found.0], parked.parts[found.0].at + found.1);
    let bits = bits(&found);
    Some(format!(
        "the float at byte {place}, {name}, is {bits:08x}; a NaN is {NAN:08x}"
    ))
}

// Every float: its entry, and its place there.
fn float_places(parked: &Parked) -> Vec<(usize, usize)> {
    let mut all = vec![(0, 16)];
    for (at, taps) in parked.stages() {
        all.push((4, at + 2));
        all.extend((0..4 * taps).map(|j| (4, at + 6 + 4 * j)));
    }
    for k in [5, 6] {
        let count = parked.parts[k].bytes.len() / 4;
        all.extend((0..count).map(|c| (k, 4 * c)));
    }
    all
}
