//! The Rust's linear-phase filters, in which the kind and M are a type and the state is as long as its user likes: for every kind and M that 02 allows, with states of several lengths.
//! It is a crate of its own, as there are many types to compile.

use embedded_dsp::pipeline::SplitInplace;
use embedded_dsp::resampling::{EvenAntiSymmetric, EvenSymmetric, OddAntiSymmetric, OddSymmetric};

/// The Rust's three calls.
#[derive(Clone, Copy)]
pub enum Call {
    Process,
    Block,
    Inplace,
}

/// A call on a list: what the filter keeps of the samples before, the samples, and as many places for the outputs.
struct Lists<'a> {
    call: Call,
    delay: &'a mut [f32],
    samples: &'a [f32],
    outputs: &'a mut [f32],
}

/// With a state of N places, of which those behind the samples kept begin with no number.
fn with_state<const N: usize>(mut filter: impl SplitInplace<f32, [f32; N]>, lists: Lists) {
    let (samples, outputs) = (lists.samples, lists.outputs);
    let mut state = [f32::NAN; N];
    state[..lists.delay.len()].copy_from_slice(lists.delay);
    match lists.call {
        Call::Process => {
            for (sample, output) in samples.iter().zip(outputs) {
                *output = filter.process_with_state(&mut state, *sample);
            }
        }
        Call::Block => filter.block_with_state(&mut state, samples, outputs),
        Call::Inplace => {
            outputs.copy_from_slice(samples);
            filter.inplace_with_state(&mut state, outputs);
        }
    }
    lists.delay.copy_from_slice(&state[..lists.delay.len()]);
}

/// The first M taps.
fn front<const M: usize>(taps: &[f32]) -> [f32; M] {
    std::array::from_fn(|t| taps[t])
}

/// A kind with an M: the Rust's LEN, and the filter with a state for each length of a chunk.
struct Filter {
    len: usize,
    runs: [fn(&[f32], Lists); 5],
}

macro_rules! every_chunk {
    ($kind:ident $odd:literal $m:literal: $($chunk:literal)*) => {
        Filter {
            len: $kind::<[f32; $m]>::LEN,
            runs: [$(|taps, lists| {
                with_state::<{ 2 * $m - 1 + $odd + $chunk }>($kind(front::<$m>(taps)), lists)
            }),*],
        }
    };
}

macro_rules! every_m {
    ($kind:ident $odd:literal: $($m:literal)*) => {
        [$(every_chunk!($kind $odd $m: 1 2 7 64 300)),*]
    };
}

macro_rules! every_kind {
    ($($kind:ident $odd:literal)*) => {
        [$(every_m!($kind $odd: 1 2 3 4 5 6 7 8 9 10 11 12 13 14 15 16 17 18 19 20 21 22 23)),*]
    };
}

static FILTERS: [[Filter; 23]; 4] = every_kind!(
    EvenSymmetric 0 OddSymmetric 1 EvenAntiSymmetric 0 OddAntiSymmetric 1
);

fn filter(odd: bool, antisymmetric: bool, m: usize) -> &'static Filter {
    &FILTERS[usize::from(odd) + 2 * usize::from(antisymmetric)][m - 1]
}

/// The Rust's LEN, for M of 1 to 23.
pub fn len(odd: bool, antisymmetric: bool, m: usize) -> usize {
    filter(odd, antisymmetric, m).len
}

/// By their bits, all NaNs being one.
fn same(a: &[f32], b: &[f32]) -> bool {
    let alike = |(a, b): (&f32, &f32)| a.to_bits() == b.to_bits() || a.is_nan() && b.is_nan();
    a.len() == b.len() && a.iter().zip(b).all(alike)
}

/// Calls the filter of these taps on a list, and answers the outputs; `delay` has LEN samples, and afterwards those that the call leaves. The length of a chunk must not show: with a
/// state of any other length the Rust has to make the same.
pub fn run(
    odd: bool,
    antisymmetric: bool,
    taps: &[f32],
    delay: &mut [f32],
    call: Call,
    samples: &[f32],
) -> Vec<f32> {
    let made = |run: &fn(&[f32], Lists)| {
        let (mut delay, mut outputs) = (delay.to_vec(), vec![0.0; samples.len()]);
        let lists = Lists {
            call,
            delay: &mut delay,
            samples,
            outputs: &mut outputs,
        };
        run(taps, lists);
        (delay, outputs)
    };
    let filter = filter(odd, antisymmetric, taps.len());
    let all: Vec<_> = filter.runs.iter().map(made).collect();
    for (kept, outputs) in &all[1..] {
        assert!(same(kept, &all[0].0) && same(outputs, &all[0].1));
    }
    let (kept, outputs) = all.into_iter().next().expect("there are several chunks");
    delay.copy_from_slice(&kept);
    outputs
}
