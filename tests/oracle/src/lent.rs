//! A slice that a case lends: its first elements are listed, and the others follow a pattern, so that a long slice makes a short record.

use crate::element::Element;
use crate::field::Role;
use std::rc::Rc;

/// The most elements that `replay` has room for: 01's limit of 65,536, and some more to exceed it.
pub const LONGEST: u64 = 65_600;

#[derive(Clone)]
pub struct Lent {
    pub length: usize,
    pub pattern: u32,
    pub stride: u32,
    pub listed: Vec<u32>,
}

impl Lent {
    /// The slice of which every element follows the pattern.
    pub fn pattern(length: u64, pattern: u32, stride: u32) -> Self {
        Lent {
            length: length as usize,
            pattern,
            stride,
            listed: Vec::new(),
        }
    }

    /// The slice of which every element is listed.
    pub fn listed(listed: Vec<u32>) -> Self {
        Lent {
            length: listed.len(),
            pattern: 0,
            stride: 0,
            listed,
        }
    }

    /// Element `i`: as listed, else the pattern plus `i` strides modulo 2^32.
    fn element(&self, i: usize) -> u32 {
        match self.listed.get(i) {
            Some(&word) => word,
            None => self
                .pattern
                .wrapping_add(self.stride.wrapping_mul(i as u32)),
        }
    }
}

/// The slice's elements, which a call may change, and how they were drawn, which a record says.
#[derive(Clone)]
pub struct Slice<T> {
    pub drawn: Rc<Lent>,
    pub elements: Vec<T>,
    pub role: Role,
}

impl<T: Element> From<Lent> for Slice<T> {
    fn from(drawn: Lent) -> Self {
        let elements = (0..drawn.length).map(|i| T::of(drawn.element(i)));
        Slice {
            elements: elements.collect(),
            drawn: Rc::new(drawn),
            role: Role::Lent,
        }
    }
}

impl<T: Element> From<Vec<T>> for Slice<T> {
    fn from(elements: Vec<T>) -> Self {
        Slice {
            drawn: Rc::new(Lent::pattern(elements.len() as u64, 0, 0)),
            elements,
            role: Role::Lent,
        }
    }
}

impl<T: Element> Slice<T> {
    /// One that a call writes to.
    pub fn span(drawn: Lent) -> Self {
        Slice {
            role: Role::Span,
            ..drawn.into()
        }
    }

    /// The same drawn at another length.
    pub fn resized(&self, length: usize) -> Self {
        let mut drawn = (*self.drawn).clone();
        drawn.length = length;
        drawn.listed.truncate(length);
        drawn.into()
    }

    pub fn len(&self) -> usize {
        self.elements.len()
    }
}
