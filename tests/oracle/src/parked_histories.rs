//! Histories of feeds in which the line is parked and taken up between feeds, against the same feeds of a line never parked: "gives the answers, outputs and cut counts of one never
//! parked". Both lines are the archive's; what a line that is never parked answers is compared with the Rust elsewhere.

use crate::archive::line;
use crate::calls::Single;
use crate::case::{Call, Case, Cases, Operation};
use crate::field::{Field, Fields, Member, Role};
use crate::gauge_line::Line;
use crate::lent::Slice;
use crate::line_calls::Open;
use crate::line_feeds::Fed;
use crate::line_samples;
use crate::line_settings::{self, Settings};
use crate::parked_cases::{Park, Places, TakeUp};
use crate::rng::Rng;
use crate::samples;
use crate::tap_sheet::Sheet;

const HISTORY: Operation<History> = Operation {
    code: 0,
    name: "Line::open, then Line::feed, parked and taken up between feeds",
    refusal: Some(|call| call.settings.refusal()),
    rust: |call| call.keep(|line| line),
    archive: |call| call.run(again),
};

/// So many feeds of each history.
const FEEDS: usize = 10;

/// The longest sheet of a line: no line needs more places.
const MOST_BYTES: usize = 5640;

/// A feed, and whether the line is parked before it.
#[derive(Clone)]
struct Turn {
    parked: u32,
    fed: Fed,
}

#[derive(Clone)]
struct History {
    settings: Settings,
    turns: Vec<Turn>,
    line: Line,
}

/// Parked and taken up; a refusal leaves no line.
fn again(line: Line) -> Line {
    let span = Slice::from(vec![0xa5; MOST_BYTES]);
    let mut parking: Park = Single::of(line, Places { span });
    if line::park(&mut parking) != 0 {
        return Line::zeros();
    }
    let mut bytes = parking.lent.span.elements;
    bytes.truncate(parking.answer.written as usize);
    let sheet = Sheet {
        sheet: bytes.into(),
    };
    let mut taking_up: TakeUp = Single::of((), sheet);
    match line::take_up(&mut taking_up) {
        0 => taking_up.answer.0,
        _ => Line::zeros(),
    }
}

impl History {
    /// Of a history that is not refused.
    fn keep(&mut self, parking: fn(Line) -> Line) {
        assert_eq!(self.run(parking), 0, "an opening that is not refused");
    }

    /// Through the archive, with what parking does to a line.
    fn run(&mut self, parking: fn(Line) -> Line) -> u64 {
        let mut opening: Open = Single::of((), self.settings.clone());
        let refusal = line::open(&mut opening);
        let mut line = opening.answer.0;
        for turn in &mut self.turns {
            if turn.parked != 0 {
                line = parking(line);
            }
            line = turn.fed.run(line);
        }
        self.line = line;
        refusal
    }
}

impl Call for History {
    fn fields(&mut self) -> Vec<Field<'_>> {
        let mut fields = self.settings.fields();
        for turn in &mut self.turns {
            fields.push(turn.parked.field().named("parked"));
            fields.extend(turn.fed.fields_and_answers());
        }
        fields.extend(self.line.fields_as(Role::Unlisted));
        fields
    }

    fn fewer(&self) -> Vec<Self> {
        let without = |i| {
            let mut fewer = self.clone();
            fewer.turns.remove(i);
            fewer
        };
        (0..self.turns.len()).map(without).collect()
    }
}

fn some_turn(rng: &mut Rng, settings: &Settings) -> Turn {
    let outputs = rng.below(6) as f32;
    let length = match rng.below(4) {
        0 => rng.below(3),
        _ => (settings.samples_for_output() * outputs) as u64 + rng.below(4),
    };
    let samples = line_samples::list(rng, length.min(300));
    let places = rng.below(8);
    Turn {
        parked: rng.below(2) as u32,
        fed: Fed::of(samples.into(), samples::span(rng, places)),
    }
}

pub fn cases(rng: &mut Rng) -> Cases {
    let settings = line_settings::any_good(rng);
    let turns = (0..FEEDS).map(|_| some_turn(rng, &settings)).collect();
    let case: Box<dyn Case> = Box::new(HISTORY.case(History {
        settings,
        turns,
        line: Line::zeros(),
    }));
    vec![case]
}
