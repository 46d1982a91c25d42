//! `gauge design`: a settings file for what a fitter wishes, in hertz.

use crate::bands::{told_images, told_passband, told_stopband};
use crate::design::{Design, designed};
use crate::fault::{Fault, tell};
use crate::options::{Options, RATES};
use crate::plans::{PARTS, Wish};
use crate::range::exact;
use crate::rate::{Unit, short};
use crate::same_file::refuse_same;
use crate::section::{sections, whole};
use crate::target::Target;
use gauge_line::Sheet;
use std::ffi::{OsStr, OsString};
use std::fmt::{Display, Write};
use std::ops::RangeInclusive;
use std::path::Path;

const OPTIONS: [&str; 10] = [
    "--in", "--every", "--levels", "--pass", "--stop", "--ripple", "--reject", "--bits", "--out",
    "--sheet",
];
const HERTZ: &str = "a number of hertz above 0";
// What is wished where it is not said: dB in the passband and in the stopband, bits of a sample.
const RIPPLE: f64 = 0.1;
const REJECT: f64 = 60.0;
const BITS: usize = 16;
// What a passband is of a stopband's edge, where it is not said.
const PASS: f64 = 0.4;
const REJECTIONS: RangeInclusive<f64> = 10.0..=120.0;

/// Prints a settings file for the wish of the arguments.
pub fn design(arguments: &[OsString]) -> Result<(), Fault> {
    let options = Options::parse(arguments, &OPTIONS, "--in")?;
    let rate = options.number("--in", RATES, HERTZ)?;
    let rate = rate.ok_or_else(|| Fault::usage("--in is missing: samples a second"))?;
    let wish = wish(&options, rate)?;
    let design = designed(&wish).ok_or_else(|| missed(&wish, rate))?;
    let sheet = options.get("--sheet");
    let text = settings(&design, &wish, rate, sheet)?;
    let out = options.get("--out").unwrap_or("-".as_ref());
    if let Some(sheet) = sheet {
        refuse_same("--sheet", sheet, &[("--out", out)])?;
        print(sheet, &packed(&design)?)?;
    }
    print(out, text.as_bytes())?;
    if out != "-" {
        for line in promises(&design, &wish, rate)? {
            tell(format_args!("gauge: {line}"));
        }
    }
    Ok(())
}

fn print(out: &OsStr, bytes: &[u8]) -> Result<(), Fault> {
    let mut target = Target::create(out)?;
    target.write(bytes)?;
    target.finish()
}

// What is wished, in cycles a sample.
fn wish(options: &Options, rate: f64) -> Result<Wish, Fault> {
    let every = every(options, rate)?;
    let level_rate = rate * PARTS as f64 / every as f64;
    let hertz = |name: &str| options.number(name, 1e-9..=1e12, HERTZ);
    let stop = hertz("--stop")?.unwrap_or(level_rate.min(rate) / 2.0);
    let pass = hertz("--pass")?.unwrap_or(PASS * stop);
    check_bands(rate, level_rate, pass, stop)?;
    let ripple = options.number("--ripple", 0.001..=3.0, "0.001 to 3 dB")?;
    let reject = options.number("--reject", REJECTIONS, "10 to 120 dB")?;
    Ok(Wish {
        every,
        pass: pass / rate,
        ripple: ripple.unwrap_or(RIPPLE),
        stop: stop / rate,
        reject: reject.unwrap_or(REJECT),
        bits: options.whole("--bits", 2, 16)?.unwrap_or(BITS) as u32,
    })
}

// Samples for each level in 64ths, which a step must be whole of.
fn every(options: &Options, rate: f64) -> Result<u64, Fault> {
    let seconds = options.number("--every", 1e-9..=1e9, "a number of seconds above 0")?;
    let levels = options.number("--levels", RATES, "a number of levels a second above 0")?;
    let seconds = match (seconds, levels) {
        (Some(seconds), None) => seconds,
        (None, Some(levels)) => 1.0 / levels,
        _ => {
            let what = "design wants either --every, seconds from level to level, or --levels, levels a second";
            return Err(Fault::usage(what));
        }
    };
    let parts = seconds * rate * PARTS as f64;
    let whole = parts.round();
    if !(1.0..=1e12).contains(&whole) {
        let what = format!(
            "{} samples for each level are not 1/64 to some 10^10",
            short(seconds * rate)
        );
        return Err(Fault::usage(what));
    }
    if (parts - whole).abs() > 1e-6 * whole.min(1e3) {
        let near =
            [parts.floor().max(1.0), parts.ceil()].map(|parts| short(parts / PARTS as f64 / rate));
        let what = format!(
            "{} samples for each level are no whole number of 64ths, so levels would be uneven; every {} s or {} s is",
            short(seconds * rate),
            near[0],
            near[1]
        );
        return Err(Fault::usage(what));
    }
    Ok(whole as u64)
}

fn check_bands(rate: f64, level_rate: f64, pass: f64, stop: f64) -> Result<(), Fault> {
    let told = |what: String| Err(Fault::usage(what));
    let (in_hertz, out) = (short(rate), short(level_rate));
    if pass >= stop {
        return told(format!(
            "--pass {} is not below --stop {}",
            short(pass),
            short(stop)
        ));
    }
    if stop > rate / 2.0 {
        return told(format!(
            "--stop {} is over half of {in_hertz} samples a second",
            short(stop)
        ));
    }
    if pass > level_rate / 2.0 {
        return told(format!(
            "--pass {} is over half of {out} levels a second",
            short(pass)
        ));
    }
    if stop > level_rate - pass {
        return told(format!(
            "--stop {} lets waves through that come back below --pass {}: with {out} levels a second it is at most {}",
            short(stop),
            short(pass),
            short(level_rate - pass)
        ));
    }
    Ok(())
}

// Why there is no line, and what to ask for instead.
fn missed(wish: &Wish, rate: f64) -> Fault {
    let hertz = |cycles: f64| short(cycles * rate);
    let wanted = format!(
        "no line found that passes up to {} Hz within {} dB and holds off {} dB from {} Hz on",
        hertz(wish.pass),
        wish.ripple,
        wish.reject,
        hertz(wish.stop)
    );
    let easier = match easier(wish, rate) {
        easier if easier.is_empty() => "a higher --stop may do".to_string(),
        easier => format!("there is one with {}", easier.join(" or with ")),
    };
    Fault::usage(format!("{wanted}; {easier}"))
}

// The first lower passband and the first lower rejection for which there is a line.
fn easier(wish: &Wish, rate: f64) -> Vec<String> {
    let narrow = |part: &f64| Wish {
        pass: part * wish.pass,
        ..*wish
    };
    let weak = |less: &f64| Wish {
        reject: wish.reject - less,
        ..*wish
    };
    let pass = [0.8, 0.6, 0.3].into_iter();
    let pass = pass
        .map(|part| narrow(&part))
        .find(|wish| designed(wish).is_some());
    let reject = [10.0, 20.0, 30.0].into_iter().map(|less| weak(&less));
    let mut reject = reject.filter(|wish| wish.reject >= *REJECTIONS.start());
    let reject = reject.find(|wish| designed(wish).is_some());
    let pass = pass.map(|wish| format!("--pass {}", short(wish.pass * rate)));
    let reject = reject.map(|wish| format!("--reject {}", short(wish.reject)));
    pass.into_iter().chain(reject).collect()
}

// The line's figures, each a line.
fn promises(design: &Design, wish: &Wish, rate: f64) -> Result<Vec<String>, Fault> {
    let refused = |refusal| Fault::file("the design", refusal);
    let whole = whole(&sections(&design.file).map_err(refused)?);
    let unit = Unit::Second(rate);
    let settings = &design.file.settings;
    let (least, greatest) = exact(settings.stages, settings.r).unwrap_or_default();
    let mut lines = vec![
        told_passband(unit, wish.pass, &design.passband),
        told_stopband(unit, wish.stop, &design.stopband),
    ];
    lines.extend(
        design
            .images
            .map(|level| told_images(unit, wish.stop, level)),
    );
    lines.push(format!(
        "delay {} s, gain {:.4}",
        unit.time(whole.delay),
        whole.gain
    ));
    lines.push(format!(
        "sums are exact for samples of {least} to {greatest}"
    ));
    lines.extend(rounding(design.file.taps.len()));
    Ok(lines)
}

// Each product of the FIR is rounded down by itself.
fn rounding(taps: usize) -> Option<String> {
    let steps = taps as f64 * 32767.0 / 32768.0;
    let scale = steps / 32768.0;
    (taps > 0).then(|| {
        format!("rounding: the FIR's values are below the exact ones by at most {steps:.1} steps of 16 bits, {scale:.4} of full scale")
    })
}

// The settings file. Taps and prototype stand in it, or in the sheet beside it.
fn settings(
    design: &Design,
    wish: &Wish,
    rate: f64,
    sheet: Option<&OsStr>,
) -> Result<String, Fault> {
    let every = wish.every as f64 / PARTS as f64 / rate;
    let (hertz, every) = (short(rate), short(every));
    let mut text = format!("# samples at {hertz} Hz, a level every {every} s\n");
    for line in promises(design, wish, rate)? {
        add(&mut text, format_args!("# {line}"));
    }
    add(&mut text, format_args!("rate = {rate}"));
    let sheet = sheet.map(|sheet| Path::new(sheet).file_name().unwrap_or(sheet));
    let sheet = sheet.map(OsStr::to_string_lossy);
    add_sections(&mut text, design, sheet.as_deref());
    Ok(text)
}

fn add_sections(text: &mut String, design: &Design, sheet: Option<&str>) {
    let (settings, taps) = (&design.file.settings, &design.file.taps);
    add(text, format_args!("stages = {}", settings.stages));
    add(text, format_args!("r = {}", settings.r));
    if !taps.is_empty() {
        add(text, format_args!("factor = {}", settings.factor));
        add(text, format_args!("taps = {}", entry(sheet, 0, taps)));
    }
    if settings.depth > 0 {
        add(text, format_args!("depth = {}", settings.depth));
    }
    if settings.phases > 0 {
        let numbers = entry(sheet, usize::from(!taps.is_empty()), &design.file.prototype);
        add(text, format_args!("phases = {}", settings.phases));
        add(text, format_args!("phase_taps = {}", settings.phase_taps));
        add(text, format_args!("step = {}", settings.step));
        add(text, format_args!("prototype = {numbers}"));
    }
}

// A text in memory takes whatever is written.
fn add(text: &mut String, line: impl Display) {
    let _ = writeln!(text, "{line}");
}

// Numbers, or the entry of the sheet that has them.
fn entry<T: Display>(sheet: Option<&str>, at: usize, numbers: &[T]) -> String {
    match sheet {
        Some(sheet) => format!("{sheet}#{at}"),
        None => {
            let words: Vec<String> = numbers.iter().map(T::to_string).collect();
            words.join(" ")
        }
    }
}

// The tap sheet: taps and prototype, each where there is one.
fn packed(design: &Design) -> Result<Vec<u8>, Fault> {
    let taps = design.file.taps.iter().flat_map(|tap| tap.to_le_bytes());
    let prototype = design
        .file
        .prototype
        .iter()
        .flat_map(|tap| tap.to_le_bytes());
    let entries: [Vec<u8>; 2] = [taps.collect(), prototype.collect()];
    let entries: Vec<Vec<u8>> = entries
        .into_iter()
        .filter(|entry| !entry.is_empty())
        .collect();
    let lengths: Vec<usize> = entries.iter().map(Vec::len).collect();
    let joined = entries.concat();
    let mut span = vec![0; 2 + 8 * lengths.len() + joined.len()];
    let length = Sheet::write(&joined, &lengths, &mut span);
    let length = length.map_err(|refusal| Fault::file("the sheet", refusal))?;
    span.truncate(length);
    Ok(span)
}
