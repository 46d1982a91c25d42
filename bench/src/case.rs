//! A case: one converter or line with its settings, on both sides.

use crate::race::Side;

/// What a sample of a case's figures is.
#[derive(Clone, Copy)]
pub enum Unit {
    Input,
    Output,
}

impl Unit {
    pub fn name(self) -> &'static str {
        match self {
            Unit::Input => "input",
            Unit::Output => "output",
        }
    }

    /// How many samples the side's last run counts for.
    pub fn samples(self, side: &dyn Side) -> usize {
        match self {
            Unit::Input => side.inputs(),
            Unit::Output => side.outputs().len(),
        }
    }
}

/// Makes a side whose stream is cut into blocks of this many samples.
pub type Build = Box<dyn Fn(usize) -> Box<dyn Side>>;

pub struct Case {
    pub name: String,
    pub unit: Unit,
    /// The lengths of blocks to race over; instructions are counted of the first.
    pub blocks: &'static [usize],
    pub ours: Build,
    pub rust: Build,
}

impl Case {
    pub fn sides(&self, block: usize) -> [Box<dyn Side>; 2] {
        [(self.ours)(block), (self.rust)(block)]
    }
}

/// One converter with two settings, ours alone: their outputs differ.
pub struct Settings {
    pub name: String,
    pub unit: Unit,
    pub blocks: &'static [usize],
    pub first: Build,
    pub second: Build,
}
