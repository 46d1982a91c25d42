//! The calls of the gauge line. But for the opening they are never listed: no record has a line's fields.

use crate::archive::line;
use crate::calls::{Buffers, Counts, Free, Single};
use crate::case::Operation;
use crate::field::{Field, Fields, Role, fields};
use crate::gauge_line::Line;
use crate::lent::Slice;
use crate::line_settings::Settings;

pub type Open = Free<Settings, Opened>;
pub type Feed = Single<Line, Buffers<i32, f32>, Counts>;
pub type Step = Single<Line, Next, Stepped>;
pub type Reset = Single<Line, (), ()>;

pub const OPEN: Operation<Open> = Operation {
    code: 0xc1,
    name: "Line::open",
    refusal: Some(|call| call.lent.refusal()),
    rust: |call| call.answer.0 = Line::opened(&call.lent),
    archive: line::open,
};

pub const FEED: Operation<Feed> = Operation {
    code: 0,
    name: "Line::feed",
    refusal: Some(|call| call.state.refusal()),
    rust: |call| call.answer = call.state.feed(&mut call.lent),
    archive: line::feed,
};

pub const STEP: Operation<Step> = Operation {
    code: 0,
    name: "Line::step",
    refusal: Some(|call| call.state.refusal()),
    rust: |call| call.answer = call.state.step(call.lent.sample(), call.lent.places > 0),
    archive: line::step,
};

pub const RESET: Operation<Reset> = Operation {
    code: 0,
    name: "Line::reset",
    refusal: Some(|call| call.state.refusal()),
    rust: |call| call.state = Line::opened(&call.state.settings()),
    archive: line::reset,
};

/// A line that was opened, which no record has.
#[derive(Clone)]
pub struct Opened(pub Line);

impl Fields for Opened {
    fn fields(&mut self) -> Vec<Field<'_>> {
        self.0.fields()
    }

    fn zeros() -> Self {
        Opened(Line::zeros())
    }

    fn fields_as(&mut self, _: Role) -> Vec<Field<'_>> {
        self.0.fields_as(Role::Unlisted)
    }
}

fields! {
    /// The samples of which one is the next, and how many places are left.
    pub struct Next {
        samples: Slice<i32>,
        at: u64,
        places: u64,
    }
}

impl Next {
    fn sample(&self) -> Option<i32> {
        let at = usize::try_from(self.at).ok()?;
        self.samples.elements.get(at).copied()
    }
}

fields! {
    /// What a step did: how many samples it took, how many outputs it wrote, and the output.
    pub struct Stepped {
        taken: u64,
        written: u64,
        value: f32,
    }
}

impl Stepped {
    pub fn of(taken: u64, output: Option<f32>) -> Self {
        Stepped {
            taken,
            written: output.is_some().into(),
            value: output.unwrap_or(0.0),
        }
    }

    pub fn counts(&self) -> (u64, u64) {
        (self.taken, self.written)
    }
}
