//! A state that is opened and given every sample of a list, one after the other.

use crate::calls::{Free, Made, Sample, Single};
use crate::element::Element;
use crate::field::{Field, Fields, Member};
use crate::lent::{Lent, Slice};

pub type Stream<L, S, T> = Free<Lists<L, T>, Left<S, T>>;

/// What the state is opened with, and the samples.
#[derive(Clone)]
pub struct Lists<L, T> {
    pub opening: L,
    pub samples: Slice<T>,
}

impl<L, T: Element> Lists<L, T> {
    pub fn of(opening: L, samples: Lent) -> Self {
        Lists {
            opening,
            samples: samples.into(),
        }
    }
}

impl<L: Fields, T: Element> Fields for Lists<L, T> {
    fn fields(&mut self) -> Vec<Field<'_>> {
        let mut fields = self.opening.fields();
        fields.push(self.samples.field().named("samples"));
        fields
    }

    fn zeros() -> Self {
        Lists {
            opening: L::zeros(),
            samples: Member::zeros(),
        }
    }
}

/// Every output, and the state that is left.
#[derive(Clone)]
pub struct Left<S, T> {
    pub outputs: Vec<T>,
    pub state: S,
}

impl<S: Fields, T: Element> Fields for Left<S, T> {
    fn fields(&mut self) -> Vec<Field<'_>> {
        let mut fields = vec![self.outputs.field().named("outputs")];
        fields.extend(self.state.fields());
        fields
    }

    fn zeros() -> Self {
        Left {
            outputs: Vec::new(),
            state: S::zeros(),
        }
    }
}

/// A call for one sample.
type OneSample<S, T> = Single<S, Sample<T>, Made<T>>;

impl<L: Fields, S: Fields, T: Element> Stream<L, S, T> {
    /// Through the archive's opening and its call for one sample: the first refusal's number.
    pub fn run(
        &mut self,
        new: fn(&mut Free<L, S>) -> u64,
        process_sample: fn(&mut OneSample<S, T>) -> u64,
    ) -> u64 {
        let mut opening = Single::of((), self.lent.opening.clone());
        let mut refusal = new(&mut opening);
        let mut call = Single::of(opening.answer, Sample::zeros());
        for &sample in &self.lent.samples.elements {
            if refusal != 0 {
                break;
            }
            call.lent.sample = sample;
            refusal = process_sample(&mut call);
            if call.answer.made != 0 {
                self.answer.outputs.push(call.answer.output);
            }
        }
        self.answer.state = call.state;
        refusal
    }
}
