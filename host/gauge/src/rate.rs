//! Samples a second, and times and frequencies told by them.

/// What times are told in: samples, or seconds where the rate is known.
#[derive(Clone, Copy, Debug, PartialEq)]
pub enum Unit {
    /// Samples of the recording.
    Sample,
    /// Seconds, at so many samples each.
    Second(f64),
}

impl Unit {
    /// The unit for a rate that may be known.
    pub fn of(rate: Option<f64>) -> Unit {
        rate.map_or(Unit::Sample, Unit::Second)
    }

    /// What it is called.
    pub fn name(self) -> &'static str {
        match self {
            Unit::Sample => "sample",
            Unit::Second(_) => "second",
        }
    }

    /// A time that is given in samples.
    pub fn time(self, samples: f64) -> String {
        match self {
            Unit::Sample => format!("{samples:.1}"),
            Unit::Second(rate) => short(samples / rate),
        }
    }

    /// How often something happens that happens so often a sample.
    pub fn frequency(self, a_sample: f64) -> String {
        match self {
            Unit::Sample => format!("{a_sample:.8}"),
            Unit::Second(rate) => short(a_sample * rate),
        }
    }

    /// Behind a number of samples: the seconds that they take.
    pub fn within(self, samples: f64) -> String {
        match self {
            Unit::Sample => String::new(),
            Unit::Second(rate) => format!(" ({} s)", short(samples / rate)),
        }
    }
}

/// A number with six digits or as many as it takes to be whole.
pub fn short(value: f64) -> String {
    if value == 0.0 || value.abs() >= 1e6 {
        return format!("{value:.0}");
    }
    let before = value.abs().log10().floor() as i32 + 1;
    let text = format!("{value:.0$}", (6 - before).clamp(0, 12) as usize);
    match text.contains('.') {
        true => text.trim_end_matches('0').trim_end_matches('.').to_string(),
        false => text,
    }
}

#[cfg(test)]
mod tests {
    use super::*;

    #[test]
    fn short_numbers_have_no_empty_digits() {
        let told = [0.0, 2.5, 1.0 / 3.0, 123456.7, 1e9, 1e-4].map(short);
        assert_eq!(
            told,
            ["0", "2.5", "0.333333", "123457", "1000000000", "0.0001"]
        );
    }
}
