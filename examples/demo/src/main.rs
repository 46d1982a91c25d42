//! The demo: a simulated recording through the gauge line, beside what a line with a holding integrator would have shown. Arguments: a settings file and a directory for the files.
#![forbid(unsafe_code)]

mod holding;
mod recording;

use gauge::convert::levels_of;
use gauge::fault::Fault;
use gauge::format::Format;
use gauge::levels::Levels;
use gauge::line_file::LineFile;
use gauge::plot::{LEVEL, Places};
use gauge::svg::Drawing;
use gauge::target::Target;
use holding::holding_levels;
use recording::{HOURS, OFFSET, RATE, first_round, recording};
use std::env;
use std::fs;
use std::process::ExitCode;

fn main() -> ExitCode {
    let arguments: Vec<String> = env::args().collect();
    let [_, settings, directory] = &arguments[..] else {
        eprintln!("demo SETTINGS DIRECTORY");
        return ExitCode::from(2);
    };
    match demonstrate(settings, directory) {
        Ok(()) => ExitCode::SUCCESS,
        Err(fault) => {
            eprintln!("{fault}");
            ExitCode::from(2)
        }
    }
}

fn demonstrate(settings: &str, directory: &str) -> Result<(), Fault> {
    let file = LineFile::read(settings)?;
    let samples = recording();
    let levels = levels_of(&mut file.open()?, &samples)?;
    let held = holding_levels(&file, &samples)?;
    summarize(&samples, &levels, &held);

    fs::create_dir_all(directory).map_err(|why| Fault::file(directory, why))?;
    let within = |name: &str| format!("{directory}/{name}");
    write_samples(&within("recording.txt"), &samples)?;
    write_levels(&within("levels.txt"), &levels)?;
    write_levels(&within("holding.txt"), &held)?;
    write_text(
        &within("levels.svg"),
        &picture(&file, &samples, &levels, &held)?,
    )?;
    println!("\nIn {directory}: recording.txt, levels.txt, holding.txt, levels.svg");
    Ok(())
}

fn picture(
    file: &LineFile,
    samples: &[i32],
    levels: &[f32],
    held: &[f32],
) -> Result<String, Fault> {
    let hour = 3600.0 * RATE as f64;
    let places = Places::of(file, hour)?;
    let name = "the sum of all samples passes 2^31 - 1";
    let drawing = Drawing {
        title: "Tail channel: one line wraps its sums, the other holds them",
        x_name: "time, hours",
        y_name: LEVEL,
        mark: first_round(samples).map(|round| (round as f64 / hour, name)),
        series: vec![
            places.samples(samples),
            places.levels("levels, holding integrator (wrong)", "#d62728", 4.5, held),
            places.levels("levels", "#003f7d", 1.6, levels),
        ],
        ..Drawing::default()
    };
    Ok(drawing.svg())
}

fn summarize(samples: &[i32], levels: &[f32], held: &[f32]) {
    println!(
        "A simulated tail channel: {} samples, {RATE} a second for {HOURS} hours; the cell's offset is {OFFSET}.",
        samples.len()
    );
    if let Some(round) = first_round(samples) {
        let minutes = round / (60 * RATE);
        println!(
            "The sum of all samples passes 2^31 - 1 with sample {round}, after {} h {:02} min.\n",
            minutes / 60,
            minutes % 60
        );
    }
    println!("hour   level    with a holding integrator (wrong)");
    for hour in 1..=HOURS {
        let at = levels.len() * hour / HOURS - 1;
        println!("{hour:4}  {:7.4}  {:7.4}", levels[at], held[at]);
    }
    let pairs = || levels.iter().zip(held);
    let agreeing = pairs().take_while(|(a, b)| a == b).count();
    let later = pairs().skip(agreeing).filter(|(a, b)| a == b).count();
    println!(
        "\nThe two agree in the first {agreeing} of {} levels, and in {later} of those behind them.",
        levels.len()
    );
    println!("A gate that follows the second opens to feed a channel that is full.");
}

fn write_samples(name: &str, samples: &[i32]) -> Result<(), Fault> {
    let lines: String = samples.iter().map(|sample| format!("{sample}\n")).collect();
    write_text(name, &lines)
}

fn write_levels(name: &str, all: &[f32]) -> Result<(), Fault> {
    let mut levels = Levels::to(Target::create(name)?, Format::Text);
    levels.write(all)?;
    levels.finish()
}

fn write_text(name: &str, text: &str) -> Result<(), Fault> {
    let mut target = Target::create(name)?;
    target.write(text.as_bytes())?;
    target.finish()
}

#[cfg(test)]
mod tests {
    use super::*;
    use gauge_line::{Line, Settings};

    // A ramp through the resampler of the demo alone: 1600 a value is 1500 a level at a step of 15/16, with nothing lost to rounding.
    #[test]
    fn a_ramp_comes_out_even() {
        let place = concat!(env!("CARGO_MANIFEST_DIR"), "/tail.settings");
        let file = LineFile::read(place).unwrap();
        assert_eq!(file.settings.step, 0.9375);
        let alone = Settings {
            stages: 1,
            r: 1,
            depth: 0,
            ..file.settings
        };
        let mut line = Line::open(alone, &[], &file.prototype).unwrap();
        let ramp: Vec<i32> = (-20..=20).map(|at| 1600 * at).collect();
        let levels = levels_of(&mut line, &ramp).unwrap();
        // The first levels still weigh zeros from before the start.
        let rises = levels[2..].windows(2).map(|pair| pair[1] - pair[0]);
        let rises: Vec<f32> = rises.collect();
        assert!(rises.len() > 2 * 16);
        assert!(
            rises.iter().all(|rise| *rise == 1500.0 / 32768.0),
            "{rises:?}"
        );
    }
}
