//! The calls into the archive, a file for each layer: the only place with `unsafe`. A state crosses as its fields, each lent, a slice as a pointer and a length, and
//! a call answers the refusal's number.

pub mod float;
pub mod integer;
pub mod line;
pub mod phase;
pub mod q15;
pub mod sheet;

use crate::element::Element;
use crate::linear;

/// Calls a function of the archive with the fields of a state, each lent, between what comes before them and what comes after.
macro_rules! with_fields {
    ($function:expr, [$($before:expr),*], $state:expr, [$($($field:ident).+),*], [$($after:expr),*]) => {
        unsafe { $function($($before,)* $(&mut $state.$($field).+,)* $($after),*) }
    };
}
use with_fields;

/// A call with samples and a span, each as a pointer and a length, and the places for its counts.
macro_rules! with_buffers {
    ($with:ident, $function:expr, $call:expr, [$($count:ident),*]) => {{
        let (samples, span) = (&$call.lent.samples.elements, &mut $call.lent.span.elements);
        $with!(
            $function,
            [],
            $call.state,
            [
                samples.as_ptr(),
                samples.len() as u64,
                span.as_mut_ptr(),
                span.len() as u64
                $(, &mut $call.answer.$count)*
            ]
        )
    }};
}
use with_buffers;

/// A count or a refusal as a word: what no word holds is none that is expected.
pub fn word(number: u64) -> u32 {
    u32::try_from(number).unwrap_or(u32::MAX)
}

type Linear<T, R> = unsafe extern "C" fn(*const T, u64, *mut T, u64, R, &mut u64) -> u64;

/// Both linear resamplers.
fn linear<T: Element, R: Element>(function: Linear<T, R>, call: &mut linear::Block<T, R>) -> u64 {
    let (samples, span) = (&call.lent.samples, &mut call.lent.span);
    unsafe {
        function(
            samples.elements.as_ptr(),
            samples.len() as u64,
            span.elements.as_mut_ptr(),
            span.len() as u64,
            call.lent.ratio,
            &mut call.answer.written,
        )
    }
}
