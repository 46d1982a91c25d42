//! The elements of a field, whatever their type: read, written over, and made simpler.

use crate::element::Element;

/// A step towards a smaller case.
#[derive(Clone, Copy)]
pub enum Edit {
    /// Takes the elements from the one to the other out of a slice.
    Remove(usize, usize),
    Zero(usize, usize),
    /// One of the simpler numbers that there are for an element.
    Simpler(usize, usize),
}

pub trait Values {
    fn len(&self) -> usize;
    fn words(&self) -> Vec<u32>;
    /// The number that its words are.
    fn number(&self) -> u64;
    fn texts(&self) -> Vec<String>;
    /// Writes over every element.
    fn overwrite(&mut self);
    /// Whether that changes anything.
    fn edit(&mut self, edit: &Edit) -> bool;
    /// The elements that there are simpler numbers for.
    fn shrinkable(&self) -> Vec<usize>;
    /// How many there are for an element.
    fn choices(&self, at: usize) -> usize;
}

pub enum Places<'a, T> {
    Fixed(&'a mut [T]),
    Slice(&'a mut Vec<T>),
}

impl<T: Element> Places<'_, T> {
    fn elements(&self) -> &[T] {
        match self {
            Places::Fixed(elements) => elements,
            Places::Slice(elements) => elements,
        }
    }

    fn elements_mut(&mut self) -> &mut [T] {
        match self {
            Places::Fixed(elements) => elements,
            Places::Slice(elements) => elements,
        }
    }
}

fn words<T: Element>(elements: &[T]) -> Vec<u32> {
    let mut words = Vec::with_capacity(elements.len());
    for element in elements {
        element.words(&mut words);
    }
    words
}

fn zero<T: Element>(elements: &mut [T]) -> bool {
    let before = words(elements);
    elements.fill(T::default());
    before != words(elements)
}

impl<T: Element> Values for Places<'_, T> {
    fn len(&self) -> usize {
        self.elements().len()
    }

    fn words(&self) -> Vec<u32> {
        words(self.elements())
    }

    fn number(&self) -> u64 {
        let digits = |number: u64, word: &u32| number << 32 | u64::from(*word);
        self.words().iter().rev().fold(0, digits)
    }

    fn texts(&self) -> Vec<String> {
        let text = |element| format!("{element:?}");
        self.elements().iter().map(text).collect()
    }

    fn overwrite(&mut self) {
        self.elements_mut().fill(T::of(0xa5a5_a5a5));
    }

    fn edit(&mut self, edit: &Edit) -> bool {
        match (*edit, self) {
            (Edit::Remove(start, end), Places::Slice(elements)) => {
                elements.drain(start..end).count() > 0
            }
            (Edit::Remove(..), Places::Fixed(_)) => false,
            (Edit::Zero(start, end), places) => zero(&mut places.elements_mut()[start..end]),
            (Edit::Simpler(at, choice), places) => {
                let element = &mut places.elements_mut()[at];
                *element = element.simpler()[choice];
                true
            }
        }
    }

    fn shrinkable(&self) -> Vec<usize> {
        let all = 0..self.len();
        all.filter(|&at| self.choices(at) > 0).collect()
    }

    fn choices(&self, at: usize) -> usize {
        self.elements()[at].simpler().len()
    }
}
