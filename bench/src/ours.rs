//! The converters of `gauge_line` behind one trait.

use crate::blocks::{Bits, Converter};
use gauge_line::{Moved, Refusal};
use std::marker::PhantomData;

/// One of our converters: as it was opened, as it is now, and its call on a block.
pub struct Ours<C, S, D, F> {
    opened: C,
    now: C,
    call: F,
    moves: PhantomData<fn(S) -> D>,
}

/// A converter that is not refused. The call looks at its refusal itself, and where samples can be left over, at how many were taken.
pub fn ours<C, S, D, F>(opened: Result<C, Refusal>, call: F) -> Ours<C, S, D, F>
where
    C: Clone,
    F: Fn(&mut C, &[S], &mut [D]) -> usize,
{
    let opened = opened.expect("the settings are not refused");
    Ours {
        now: opened.clone(),
        opened,
        call,
        moves: PhantomData,
    }
}

impl<C, S, D, F> Converter for Ours<C, S, D, F>
where
    C: Clone,
    D: Bits,
    F: Fn(&mut C, &[S], &mut [D]) -> usize,
{
    type Sample = S;
    type Output = D;

    fn restart(&mut self) {
        self.now = self.opened.clone();
    }

    fn convert(&mut self, src: &[S], dst: &mut [D]) -> usize {
        (self.call)(&mut self.now, src, dst)
    }
}

/// How many outputs were written, of a call that must not be refused.
pub fn accepted(written: Result<usize, Refusal>) -> usize {
    written.expect("a call is not refused")
}

/// The same of a call that must have taken all of these samples.
pub fn took_all<S>(src: &[S], moved: Result<Moved, Refusal>) -> usize {
    let Moved { taken, written } = moved.expect("a call is not refused");
    assert!(taken == src.len());
    written
}
