//! 02, request 5: a resampler in straight phase, which the Rust has not. Written from the request's paragraph and 01, section 5, over the prototype as one row of P × T places.

use resamplers::Resampler;

pub struct Straight {
    phases: usize,
    row: Vec<f32>,
    // The same taps, phase by phase.
    by_phase: Vec<f32>,
    newest: Vec<f32>,
    mu: f32,
    step: f32,
}

impl Straight {
    pub fn opened(phases: u64, taps: u64, prototype: &[f32], step: f32) -> Box<dyn Resampler> {
        let (phases, taps) = (phases as usize, taps as usize);
        let of_phase = |p: usize| prototype.iter().skip(p).step_by(phases).copied();
        Box::new(Straight {
            phases,
            row: prototype.to_vec(),
            by_phase: (0..phases).flat_map(of_phase).collect(),
            newest: vec![0.0; taps],
            mu: 1.0,
            step,
        })
    }

    // "mu - 1 and the sample in front"
    fn consume(&mut self, sample: f32) {
        self.newest.pop();
        self.newest.insert(0, sample);
        self.mu -= 1.0;
    }

    // "reads the packed prototype at t × P + p and t × P + p + 1, zero past its end, with p = floor(q) unreduced and f = q − p"
    fn output(&self) -> f32 {
        let q = (1.0 - self.mu.clamp(0.0, 1.0)) * self.phases as f32;
        let p = q.floor();
        let f = q - p;
        let sum = |from: usize| {
            let places = self.row.iter().skip(from).step_by(self.phases);
            let taps = places.copied().chain(std::iter::repeat(0.0));
            let products = taps.zip(&self.newest).map(|(tap, sample)| tap * sample);
            products.fold(0.0, |sum: f32, product| sum + product)
        };
        sum(p as usize) * (1.0 - f) + sum(p as usize + 1) * f
    }

    fn write_due(&mut self, span: &mut [f32]) -> usize {
        let mut written = 0;
        while self.mu < 1.0 && written < span.len() {
            span[written] = self.output();
            self.mu += self.step;
            written += 1;
        }
        written
    }
}

impl Resampler for Straight {
    fn process_block(&mut self, samples: &[f32], span: &mut [f32]) -> usize {
        let mut waiting = samples.iter();
        let mut written = 0;
        while written < span.len() {
            written += self.write_due(&mut span[written..]);
            if written < span.len() {
                match waiting.next() {
                    Some(&sample) => self.consume(sample),
                    None => break,
                }
            }
        }
        written
    }

    fn push(&mut self, sample: f32, span: &mut [f32]) -> usize {
        self.consume(sample);
        self.write_due(span)
    }

    fn reset(&mut self) {
        self.newest.fill(0.0);
        self.mu = 1.0;
    }

    fn set_parts(&mut self, delay: &[f32], mu: f32) {
        self.newest.copy_from_slice(delay);
        self.mu = mu;
    }

    fn parts(&self) -> (&[f32], &[f32], f32, f32) {
        (&self.by_phase, &self.newest, self.mu, self.step)
    }
}
