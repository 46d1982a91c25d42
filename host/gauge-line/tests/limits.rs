//! Each limit is accepted, and what lies past it is refused by its own name.

use gauge_line::limits::*;
use gauge_line::*;

const SETTINGS: Settings = Settings {
    stages: 1,
    r: 1,
    factor: 1,
    depth: 0,
    phases: 0,
    phase_taps: 0,
    phase: Phase::Wrapped,
    step: 0.0,
    thinning: Thinning::Integrators,
};

// A line with a resampler, whose prototype is as long as its settings say.
fn resampled(phases: usize, phase_taps: usize, step: f32) -> Result<Line, Refusal> {
    let settings = Settings {
        phases,
        phase_taps,
        step,
        ..SETTINGS
    };
    Line::open(settings, &[], &vec![0.0; phases * phase_taps])
}

// The refusal of an opening, none where it was accepted.
fn refused<T>(opened: Result<T, Refusal>) -> Option<Refusal> {
    opened.err()
}

#[test]
fn cic() {
    assert_eq!(refused(CicDecimator::new(MOST_STAGES, 1)), None);
    assert_eq!(
        refused(CicDecimator::new(MOST_STAGES + 1, 1)),
        Some(Refusal::Stages)
    );
    assert_eq!(refused(CicInterpolator::new(1, MOST_FACTOR)), None);
    assert_eq!(
        refused(CicInterpolator::new(1, MOST_FACTOR + 1)),
        Some(Refusal::Factor)
    );
}

#[test]
fn gain_bits_of_a_line() {
    for (r, bits) in [(14, MOST_GAIN_BITS), (15, MOST_GAIN_BITS + 1)] {
        let cic = CicDecimator::new(8, r).unwrap();
        let settings = Settings {
            stages: 8,
            r,
            ..SETTINGS
        };
        let line = Line::open(settings, &[], &[]);
        assert_eq!(cic.gain_bits(), Ok(bits));
        assert_eq!(line.is_ok(), bits <= MOST_GAIN_BITS);
    }
}

#[test]
fn fir() {
    let taps = [1; MOST_TAPS + 1];
    assert_eq!(refused(FirDecimator::new(&taps[1..], MOST_FACTOR)), None);
    assert_eq!(refused(FirDecimator::new(&taps, 1)), Some(Refusal::Taps));
    assert_eq!(
        refused(FirDecimator::new(&[1], MOST_FACTOR + 1)),
        Some(Refusal::FirFactor)
    );
    assert_eq!(
        refused(Line::open(SETTINGS, &taps, &[])),
        Some(Refusal::Taps)
    );
}

#[test]
fn blocks() {
    let samples = vec![1; MOST_BLOCK + 1];
    let mut span = vec![0; 1];
    assert_eq!(resample_linear_q15(&samples[1..], &mut span, 65536), Ok(1));
    assert_eq!(
        resample_linear_q15(&samples, &mut span, 65536),
        Err(Refusal::Samples)
    );
    assert_eq!(
        polyphase_decimate_q15(&[1], &samples, 1, &mut span),
        Err(Refusal::Taps)
    );
}

#[test]
fn half_band() {
    let taps = [0.0; MOST_HALF_BAND_TAPS + 1];
    assert_eq!(refused(HbfDec::new(&taps[1..])), None);
    assert_eq!(refused(HbfInt::new(&taps)), Some(Refusal::HalfBandTaps));
    assert_eq!(refused(HbfStream::new(MOST_DEPTH)), None);
    assert_eq!(
        refused(HbfDecCascade::new(MOST_DEPTH + 1)),
        Some(Refusal::Depth)
    );
}

#[test]
fn resampler() {
    assert_eq!(refused(resampled(LEAST_PHASES, 1, LEAST_STEP)), None);
    assert_eq!(
        refused(resampled(MOST_PHASES, MOST_PHASE_TAPS, MOST_STEP)),
        None
    );
    for (phases, taps) in [
        (LEAST_PHASES - 1, 1),
        (MOST_PHASES + 1, 1),
        (LEAST_PHASES, MOST_PHASE_TAPS + 1),
    ] {
        assert_eq!(refused(resampled(phases, taps, 1.0)), Some(Refusal::Phases));
    }
    for step in [LEAST_STEP / 1.001, MOST_STEP * 1.001, f32::NAN] {
        assert_eq!(refused(resampled(2, 1, step)), Some(Refusal::Step));
    }
    assert_eq!(
        refused(PolyphaseResampF32::from_taps(2, 1, &[0.0], 1.0)),
        Some(Refusal::Prototype)
    );
}
