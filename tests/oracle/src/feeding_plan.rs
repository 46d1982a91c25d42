//! Feeding plans, against feeds of the archive's own line, freshly opened, on samples that are drawn for them: "These equal the counts of a freshly opened line on every choice of
//! samples of those lengths." What a line that is fed answers is compared with the Rust elsewhere.

use crate::archive::line;
use crate::calls::Single;
use crate::case::{Call, Case, Cases, Operation};
use crate::field::{Field, Fields, Member};
use crate::lent::Slice;
use crate::line_calls::Open;
use crate::line_feeds::Fed;
use crate::line_samples;
use crate::line_settings::{self, Settings};
use crate::rng::Rng;
use crate::samples;

const PLAN: Operation<Plan> = Operation {
    code: 0,
    name: "plan, and Line::open, then Line::feed",
    refusal: Some(Plan::refusal),
    rust: Plan::feed,
    archive: line::plan,
};

/// "22 when the two lists and the two result lists aren't of one length or pass a limit"
const REFUSED: u32 = 22;

/// "up to 4,096 calls"
const MOST_CALLS: usize = 4096;

/// "Lengths are at most 65,536"
const MOST_LENGTH: u64 = 65_536;

#[derive(Clone)]
pub struct Plan {
    pub settings: Settings,
    pub pieces: Slice<u64>,
    pub spans: Slice<u64>,
    pub taken: Slice<u64>,
    pub written: Slice<u64>,
    /// Of the samples that the line is fed.
    seed: u64,
}

impl Plan {
    /// "after all opening refusals"
    fn refusal(&self) -> u32 {
        let calls = self.pieces.len();
        let others = [self.spans.len(), self.taken.len(), self.written.len()];
        let mut lengths = self.pieces.elements.iter().chain(&self.spans.elements);
        let is_bad = others.iter().any(|length| *length != calls)
            || calls > MOST_CALLS
            || lengths.any(|length| *length > MOST_LENGTH);
        match self.settings.refusal() {
            0 if is_bad => REFUSED,
            number => number,
        }
    }

    /// The counts of a line that is opened and fed.
    fn feed(&mut self) {
        let mut opening: Open = Single::of((), self.settings.clone());
        assert_eq!(
            line::open(&mut opening),
            0,
            "an opening that is not refused"
        );
        let mut line = opening.answer.0;
        let mut rng = Rng::new(self.seed);
        for call in 0..self.pieces.len() {
            let samples = line_samples::list(&mut rng, self.pieces.elements[call]);
            let span = samples::span(&mut rng, self.spans.elements[call]);
            let mut fed = Fed::of(samples.into(), span);
            line = fed.run(line);
            self.taken.elements[call] = fed.taken;
            self.written.elements[call] = fed.written;
        }
    }
}

impl Call for Plan {
    fn fields(&mut self) -> Vec<Field<'_>> {
        let mut fields = self.settings.fields();
        fields.push(self.pieces.field().named("pieces"));
        fields.push(self.spans.field().named("spans"));
        fields.push(self.taken.field().named("taken list"));
        fields.push(self.written.field().named("written list"));
        fields
    }
}

/// Few calls mostly, and now and then as many as a plan may have.
fn some_calls(rng: &mut Rng) -> usize {
    match rng.below(256) {
        0 => MOST_CALLS,
        1..=8 => rng.below(60) as usize,
        _ => rng.below(9) as usize,
    }
}

/// About as many samples as make a few outputs, of which each takes so many, or the longest piece.
fn some_piece(rng: &mut Rng, each: f32, calls: usize) -> u64 {
    let outputs = rng.below(6) as f32;
    match rng.below(64) {
        0 if calls < 100 => MOST_LENGTH - rng.below(2),
        1..=16 => rng.below(4),
        _ => ((each * outputs) as u64).min(3000) + rng.below(4),
    }
}

fn some_span(rng: &mut Rng, calls: usize) -> u64 {
    match rng.below(32) {
        0 if calls < 100 => MOST_LENGTH - rng.below(2),
        1..=3 => rng.below(400),
        _ => rng.below(8),
    }
}

/// One of the lists of another length, or a length past its limit.
fn spoil(rng: &mut Rng, plan: &mut Plan) {
    let Plan {
        pieces,
        spans,
        taken,
        written,
        ..
    } = plan;
    let mut lists = [pieces, spans, taken, written];
    let (list, calls) = (rng.below(4) as usize, lists[0].len());
    let over = rng.pick(&[MOST_LENGTH + 1, 1 << 32, u64::MAX]);
    match rng.below(3) {
        0 => lists[list].elements.push(0),
        1 if calls > 0 => {
            lists[list].elements.pop();
        }
        _ if calls > 0 => lists[list % 2].elements[rng.below(calls as u64) as usize] = over,
        _ => lists
            .iter_mut()
            .for_each(|list| list.elements.resize(MOST_CALLS + 1, 0)),
    }
}

pub fn cases(rng: &mut Rng) -> Cases {
    let settings = match rng.one_in(8) {
        true => line_settings::spoilt(rng),
        false => line_settings::any_good(rng),
    };
    let each = match settings.refusal() {
        0 => settings.samples_for_output(),
        _ => 1.0,
    };
    let calls = some_calls(rng);
    let pieces: Vec<u64> = (0..calls).map(|_| some_piece(rng, each, calls)).collect();
    let spans: Vec<u64> = (0..calls).map(|_| some_span(rng, calls)).collect();
    let mut plan = Plan {
        settings,
        pieces: pieces.into(),
        spans: spans.into(),
        taken: Slice::span(samples::span(rng, calls as u64)),
        written: Slice::span(samples::span(rng, calls as u64)),
        seed: rng.next(),
    };
    if rng.one_in(6) {
        spoil(rng, &mut plan);
    }
    let case: Box<dyn Case> = Box::new(PLAN.case(plan));
    vec![case]
}
