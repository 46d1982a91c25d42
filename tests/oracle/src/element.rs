//! The numbers that samples, taps, states and answers are made of.

use crate::field::Shape;
use crate::simpler;
use std::fmt::Debug;

pub trait Element: Copy + Debug + Default + 'static {
    /// How a record has an array of them.
    const ARRAY: Shape;
    /// An element of a lent slice from its word: the low bits.
    fn of(word: u32) -> Self;
    /// As a record has it: one word, or two of which the low one comes first. Every NaN is one.
    fn words(self, to: &mut Vec<u32>);
    /// For a smaller case, the simplest first.
    fn simpler(self) -> Vec<Self>;
}

/// An integer, by how a record has its arrays and what its words are made of.
macro_rules! integer {
    ($type:ty, $array:expr, $words:expr) => {
        impl Element for $type {
            const ARRAY: Shape = $array;

            fn of(word: u32) -> Self {
                word as $type
            }

            fn words(self, to: &mut Vec<u32>) {
                to.extend($words(self));
            }

            /// Those that the type has.
            fn simpler(self) -> Vec<Self> {
                let simpler = simpler::integers(self.into());
                simpler.into_iter().flat_map(Self::try_from).collect()
            }
        }
    };
}

integer!(u64, Shape::Plain, |x| [x as u32, (x >> 32) as u32]);
integer!(i64, Shape::Plain, |x| [x as u32, (x >> 32) as u32]);
integer!(u32, Shape::Plain, |x| [x]);
integer!(i32, Shape::Plain, |x| [x as u32]);
integer!(i16, Shape::Array, |x| [x as u16 as u32]);
integer!(u8, Shape::Array, |x| [u32::from(x)]);

impl Element for f32 {
    const ARRAY: Shape = Shape::Array;

    fn of(word: u32) -> Self {
        f32::from_bits(word)
    }

    fn words(self, to: &mut Vec<u32>) {
        to.push(if self.is_nan() {
            0x7fc0_0000
        } else {
            self.to_bits()
        });
    }

    fn simpler(self) -> Vec<Self> {
        simpler::floats(self)
    }
}
