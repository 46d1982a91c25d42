//! The smallest case that still differs: fewer calls, shorter slices, zeros and simpler numbers, tried one after the other until none does.

use crate::case::{Call, Called, Case};
use crate::places::{Edit, Values};

/// As many cases are tried at most.
const TRIALS: usize = 200_000;

/// Of a longer list not every element is tried by itself.
const SHORT: usize = 2048;

struct Shrink<C> {
    least: Called<C>,
    trials: usize,
}

impl<C: Call> Shrink<C> {
    /// Goes on with a call if it still differs.
    fn keeps(&mut self, call: C) -> bool {
        if self.trials == 0 {
            return false;
        }
        self.trials -= 1;
        let case = self.least.operation.case(call);
        let differs = !case.agrees();
        if differs {
            self.least = case;
        }
        differs
    }

    fn keeps_edit(&mut self, field: usize, edit: &Edit) -> bool {
        let mut call = self.least.lent.clone();
        let is_edited = call.fields()[field].values.edit(edit);
        is_edited && self.keeps(call)
    }

    fn read<R>(&self, field: usize, of: impl Fn(&dyn Values) -> R) -> R {
        of(&*self.least.lent.clone().fields()[field].values)
    }

    fn length(&self, field: usize) -> usize {
        self.read(field, |values| values.len())
    }

    fn calls(&mut self) -> bool {
        let fewer = self.least.lent.fewer();
        fewer.into_iter().any(|call| self.keeps(call))
    }

    /// Cuts a slice at its end or at its front, by as much as can be.
    fn cut(&mut self, field: usize, part: fn(usize, usize) -> Edit) -> bool {
        let mut kept = false;
        let mut size = self.length(field);
        while size > 0 {
            let length = self.length(field);
            match size <= length && self.keeps_edit(field, &part(length, size)) {
                true => kept = true,
                false => size /= 2,
            }
        }
        kept
    }

    /// Zeroes all elements, then halves, quarters and so on.
    fn zeros(&mut self, field: usize) -> bool {
        let mut kept = false;
        let length = self.length(field);
        let least = if length > SHORT { length / 64 } else { 1 };
        let mut size = length;
        while size >= least && size > 0 {
            for start in (0..length).step_by(size) {
                let end = (start + size).min(length);
                kept |= self.keeps_edit(field, &Edit::Zero(start, end));
            }
            size /= 2;
        }
        kept
    }

    fn numbers(&mut self, field: usize) -> bool {
        let mut kept = false;
        let shrinkable = self.read(field, |values| values.shrinkable());
        for at in shrinkable.into_iter().take(SHORT) {
            while self.number(field, at) {
                kept = true;
            }
        }
        kept
    }

    fn number(&mut self, field: usize, at: usize) -> bool {
        let choices = self.read(field, |values| values.choices(at));
        (0..choices).any(|choice| self.keeps_edit(field, &Edit::Simpler(at, choice)))
    }

    fn fields(&mut self) -> bool {
        let mut kept = false;
        for field in 0..self.least.lent.clone().fields().len() {
            kept |= self.cut(field, |length, size| Edit::Remove(length - size, length));
            kept |= self.cut(field, |_, size| Edit::Remove(0, size));
            kept |= self.zeros(field);
            kept |= self.numbers(field);
        }
        kept
    }
}

pub fn smallest<C: Call>(case: Called<C>) -> Called<C> {
    let mut shrink = Shrink {
        least: case,
        trials: TRIALS,
    };
    while shrink.calls() || shrink.fields() {}
    shrink.least
}
