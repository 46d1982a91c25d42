//! One case as a line of words. ../README.md has the format.

use crate::field::{Field, Role, Shape};
use crate::lent::Lent;
use std::io::{self, Write};

pub struct Record {
    pub operation: u32,
    /// 01's number, 0 for none.
    pub refusal: u32,
    pub longest_slice: usize,
    words: Vec<u32>,
}

impl Record {
    pub fn of(operation: u32) -> Self {
        Record {
            operation,
            refusal: 0,
            longest_slice: 0,
            words: vec![operation],
        }
    }

    pub fn word(&mut self, x: u32) -> &mut Self {
        self.words.push(x);
        self
    }

    pub fn refusal(&mut self, number: u32) -> &mut Self {
        self.refusal = number;
        self.word(number)
    }

    fn lent(&mut self, slice: &Lent) {
        self.longest_slice = self.longest_slice.max(slice.length);
        self.word(slice.length as u32)
            .word(slice.pattern)
            .word(slice.stride)
            .word(slice.listed.len() as u32);
        self.words.extend(&slice.listed);
    }

    /// An array of a state before a call, as a slice that is lent: the longest end of it that follows a pattern is not listed.
    fn array(&mut self, words: &[u32]) {
        let last = words.len() - 1;
        let stride = words[last].wrapping_sub(words[last - 1]);
        let follows = |i: &usize| words[i + 1].wrapping_sub(words[*i]) == stride;
        let listed = last - (0..last).rev().take_while(follows).count();
        let steps = stride.wrapping_mul(last as u32);
        self.lent(&Lent {
            length: words.len(),
            pattern: words[last].wrapping_sub(steps),
            stride,
            listed: words[..listed].to_vec(),
        });
    }

    /// A span or a state's array after the call: up to the last place that changed, the places behind it being as before.
    fn left(&mut self, before: &[u32], after: &[u32]) {
        let changed = |i: &usize| after[*i] != before[*i];
        let listed = (0..after.len()).rev().find(changed).map_or(0, |i| i + 1);
        self.word(listed as u32);
        self.words.extend(&after[..listed]);
    }

    /// A field as it is lent.
    pub fn input(&mut self, field: &Field) {
        match &field.shape {
            Shape::Plain => self.words.extend(field.values.words()),
            Shape::Array => self.array(&field.values.words()),
            Shape::Slice(drawn) => self.lent(drawn),
        }
    }

    /// A field as it is left.
    pub fn answer(&mut self, before: &Field, after: &Field) {
        match after.shape {
            Shape::Plain => self.words.extend(after.values.words()),
            _ => self.left(&before.values.words(), &after.values.words()),
        }
    }

    /// What is lent, the refusal, then the answers, the span and the state.
    pub fn call(&mut self, before: &[Field], refusal: Option<u32>, after: &[Field]) {
        for field in before.iter().filter(|field| field.is_lent()) {
            self.input(field);
        }
        if let Some(number) = refusal {
            self.refusal(number);
        }
        for role in [Role::Answer, Role::Span, Role::State] {
            for (before, after) in before.iter().zip(after).filter(|(_, f)| f.role == role) {
                self.answer(before, after);
            }
        }
    }

    pub fn len(&self) -> usize {
        self.words.len()
    }

    pub fn write(&self, out: &mut impl Write) -> io::Result<()> {
        write!(out, "{:08x}", self.words.len())?;
        for word in &self.words {
            write!(out, " {word:08x}")?;
        }
        writeln!(out)
    }
}
