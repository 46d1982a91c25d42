//! Seeded cases for every converter: what the unchanged Rust answers, as a list or compared with the archive. ../README.md says how.

mod archive;
mod calls;
mod cascade;
mod case;
mod cic_decimator;
mod cic_interpolator;
mod cic_settings;
mod compare;
mod differences;
mod element;
mod exact_sums;
mod feeding_plan;
mod field;
mod fir_decimator;
mod float_samples;
mod gauge_line;
mod half_band;
mod hbf_dec;
mod hbf_dec_cascade;
mod hbf_dec_cascade_98;
mod hbf_int;
mod hbf_int_cascade;
mod hbf_stream;
mod hbf_table;
mod lent;
mod line_calls;
mod line_cases;
mod line_damage;
mod line_feeds;
mod line_samples;
mod line_settings;
mod line_whole;
mod linear;
mod linear_f32;
mod linear_phase;
mod linear_q15;
mod list;
mod nonrecursive_decimator;
mod parked_cases;
mod parked_histories;
mod parked_line;
mod phase_rows;
mod places;
mod polyphase_q15;
mod polyphase_resamp;
mod q15_samples;
mod record;
mod refusals;
mod report;
mod request;
mod rng;
mod samples;
mod search;
mod settings;
mod shrink;
mod simpler;
mod sizes;
mod straight;
mod stream;
mod tap_sheet;
mod values;

use cascade::Cascade;
use case::Cases;
use compare::{Difference, Done};
use half_band::HalfBand;
use request::{Command, Converter, Draw, Request, USAGE};
use std::io::{self, BufWriter, Write};
use std::process::ExitCode;

/// A converter that has no cases but those of a list, none with more samples and none that are fixed.
const fn listed(name: &'static str, cases: Draw) -> Converter {
    Converter {
        name,
        is_listed: true,
        fixed: Vec::new,
        cases,
        more: cases,
        long: cases,
    }
}

/// A converter of which no list has a case.
const fn compared(name: &'static str, cases: Draw) -> Converter {
    Converter {
        is_listed: false,
        ..listed(name, cases)
    }
}

impl Converter {
    const fn fixed(mut self, fixed: fn() -> Cases) -> Self {
        self.fixed = fixed;
        self
    }

    const fn more(mut self, more: Draw) -> Self {
        self.more = more;
        self
    }

    const fn long(mut self, long: Draw) -> Self {
        self.long = long;
        self
    }
}

const CONVERTERS: [Converter; 23] = [
    listed("cic_decimator", cic_decimator::cases)
        .fixed(cic_decimator::every_gain)
        .long(cic_decimator::long),
    compared("exact_sums", exact_sums::cases).fixed(exact_sums::every_range),
    compared("nonrecursive_decimator", nonrecursive_decimator::cases)
        .fixed(nonrecursive_decimator::every_setting)
        .long(nonrecursive_decimator::long),
    listed("cic_interpolator", cic_interpolator::cases)
        .fixed(cic_interpolator::every_gain)
        .more(cic_interpolator::more)
        .long(cic_interpolator::long),
    listed("polyphase_q15", polyphase_q15::cases).long(polyphase_q15::long),
    listed("linear_q15", linear_q15::cases)
        .fixed(linear_q15::at_limits)
        .long(linear_q15::long),
    listed("fir_decimator", fir_decimator::cases)
        .more(fir_decimator::more)
        .long(fir_decimator::long),
    listed("values", values::cases),
    listed("linear_f32", linear_f32::cases)
        .fixed(linear_f32::at_limits)
        .long(linear_f32::long),
    listed("hbf_dec", hbf_dec::Decimator::cases).long(hbf_dec::Decimator::long),
    listed("hbf_int", hbf_int::Interpolator::cases).long(hbf_int::Interpolator::long),
    listed("hbf_dec_cascade", hbf_dec_cascade::Decimators::cases)
        .long(hbf_dec_cascade::Decimators::long),
    listed("hbf_int_cascade", hbf_int_cascade::Interpolators::cases)
        .long(hbf_int_cascade::Interpolators::long),
    listed("hbf_stream", hbf_stream::cases)
        .more(hbf_stream::more)
        .long(hbf_stream::long),
    listed("polyphase_resamp", polyphase_resamp::cases)
        .more(polyphase_resamp::more)
        .long(polyphase_resamp::long),
    listed("gauge_line", line_cases::cases)
        .fixed(line_cases::fixed)
        .more(line_cases::more)
        .long(line_cases::long),
    listed("tap_sheet", tap_sheet::cases),
    listed("linear_phase", linear_phase::cases)
        .more(linear_phase::more)
        .long(linear_phase::long),
    compared("parked_line", parked_cases::cases).fixed(parked_cases::stored),
    compared("hbf_dec_cascade_98", hbf_dec_cascade_98::cases)
        .fixed(hbf_dec_cascade_98::fixed)
        .long(hbf_dec_cascade_98::Decimators::long),
    compared("phase_rows", phase_rows::cases).fixed(phase_rows::every_size),
    compared("parked_history", parked_histories::cases),
    compared("feeding_plan", feeding_plan::cases),
];

/// Writes what a comparison found, and answers whether that is no difference.
fn compare(request: &Request, out: &mut impl Write) -> io::Result<bool> {
    let seed = request.seed;
    match compare::compare(request) {
        Ok(Done { cases, samples }) => {
            writeln!(
                out,
                "seed {seed}: {cases} cases, {samples} samples, 0 differences"
            )?;
            Ok(true)
        }
        Err(Difference { number, case }) => {
            writeln!(out, "seed {seed}, case {number}: {}", case.report())?;
            Ok(false)
        }
    }
}

fn run(request: &Request, out: &mut impl Write) -> io::Result<bool> {
    let is_good = match request.command {
        Command::List => list::list(request, out).map(|()| true),
        Command::Compare => compare(request, out),
    }?;
    out.flush()?;
    Ok(is_good)
}

fn main() -> ExitCode {
    let Some(request) = Request::of(std::env::args().skip(1), &CONVERTERS) else {
        eprintln!("{USAGE}");
        return ExitCode::from(2);
    };
    match run(&request, &mut BufWriter::new(io::stdout().lock())) {
        Ok(true) => ExitCode::SUCCESS,
        Ok(false) => ExitCode::FAILURE,
        Err(error) => {
            eprintln!("oracle: {error}");
            ExitCode::FAILURE
        }
    }
}
