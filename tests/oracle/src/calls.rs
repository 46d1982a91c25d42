//! A single call, put together from a state, what else is lent, and what is answered; and the parts that several converters share.

use crate::case::{Call, Case, Operation};
use crate::element::Element;
use crate::field::{Field, Fields, Role, fields};
use crate::lent::{Lent, Slice};

#[derive(Clone)]
pub struct Single<S, L, A> {
    pub state: S,
    pub lent: L,
    pub answer: A,
}

impl<S: Fields, L: Fields, A: Fields> Single<S, L, A> {
    pub fn of(state: S, lent: L) -> Self {
        Single {
            state,
            lent,
            answer: A::zeros(),
        }
    }
}

impl<S: Fields, L: Fields, A: Fields> Call for Single<S, L, A> {
    fn fields(&mut self) -> Vec<Field<'_>> {
        let mut fields = self.state.fields_as(Role::State);
        fields.extend(self.lent.fields());
        fields.extend(self.answer.fields_as(Role::Answer));
        fields
    }
}

impl<S: Fields, L: Fields, A: Fields> Operation<Single<S, L, A>> {
    /// The case, and in `state` what it is expected to leave.
    pub fn on(self, state: &mut S, lent: L) -> Box<dyn Case> {
        let case = self.case(Single::of(state.clone(), lent));
        *state = case.expected.state.clone();
        Box::new(case)
    }
}

/// A call that leaves no state.
pub type Free<L, A> = Single<(), L, A>;

impl<L: Fields, A: Fields> Operation<Free<L, A>> {
    /// The case, and what it is expected to answer.
    pub fn of(self, lent: L) -> (Box<dyn Case>, A) {
        let case = self.case(Single::of((), lent));
        let answer = case.expected.answer.clone();
        (Box::new(case), answer)
    }
}

fields! {
    /// One sample.
    pub struct Sample<T: Element> {
        sample: T,
    }
}

fields! {
    /// One number.
    pub struct Value<T: Element> {
        value: T,
    }
}

fields! {
    /// One output or none.
    pub struct Made<T: Element> {
        made: u32,
        output: T,
    }
}

impl<T: Element> From<Option<T>> for Made<T> {
    fn from(output: Option<T>) -> Self {
        Made {
            made: output.is_some().into(),
            output: output.unwrap_or_default(),
        }
    }
}

fields! {
    /// One sample, and a span for what it makes.
    pub struct Push<T: Element> {
        sample: T,
        span: Slice<T>,
    }
}

impl<T: Element> Push<T> {
    pub fn of(sample: T, span: Lent) -> Self {
        Push {
            sample,
            span: Slice::span(span),
        }
    }
}

fields! {
    /// Samples, and a span for what they make.
    pub struct Buffers<T: Element, U: Element> {
        samples: Slice<T>,
        span: Slice<U>,
    }
}

impl<T: Element, U: Element> Buffers<T, U> {
    pub fn of(samples: Lent, span: Lent) -> Self {
        Buffers {
            samples: samples.into(),
            span: Slice::span(span),
        }
    }

    /// How many outputs whole steps make, where so many samples make so many.
    pub fn whole(&self, takes: usize, gives: usize) -> u64 {
        let steps = (self.samples.len() / takes).min(self.span.len() / gives);
        (steps * gives) as u64
    }
}

fields! {
    /// How many outputs were written.
    pub struct Written {
        written: u64,
    }
}

fields! {
    /// How many samples were taken, and how many outputs written.
    pub struct Counts {
        taken: u64,
        written: u64,
    }
}
