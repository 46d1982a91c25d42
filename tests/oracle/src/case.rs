//! A case: a call with what it is lent, what the Rust and 01 expect of it, and what the archive answers.

use crate::field::Field;
use crate::record::Record;
use crate::report;
use crate::shrink;

/// What is lent to an operation, and the places it answers in, which are zeros before.
pub trait Call: Clone + 'static {
    fn fields(&mut self) -> Vec<Field<'_>>;

    /// The same with one part less, where it has several.
    fn fewer(&self) -> Vec<Self> {
        Vec::new()
    }

    fn write(record: &mut Record, before: &mut Self, refusal: Option<u32>, after: &mut Self) {
        record.call(&before.fields(), refusal, &after.fields());
    }
}

/// An operation of the port, and its three sources.
pub struct Operation<C> {
    /// Its code in records, 0 where it is never listed.
    pub code: u32,
    pub name: &'static str,
    /// 01's number, 0 for none; nothing where an operation refuses nothing.
    pub refusal: Option<fn(&C) -> u32>,
    /// What a call leaves that is not refused.
    pub rust: fn(&mut C),
    /// Answers the refusal's number.
    pub archive: fn(&mut C) -> u64,
}

impl<C> Clone for Operation<C> {
    fn clone(&self) -> Self {
        *self
    }
}

impl<C> Copy for Operation<C> {}

impl<C: Call> Operation<C> {
    pub fn case(self, lent: C) -> Called<C> {
        let refusal = self.refusal.map(|number| number(&lent));
        let mut expected = lent.clone();
        if refusal.is_none_or(|number| number == 0) {
            (self.rust)(&mut expected);
        }
        Called {
            operation: self,
            lent,
            refusal,
            expected,
        }
    }
}

/// A call, and what it is expected to leave: a refusal leaves everything as lent, and zeros for answers.
#[derive(Clone)]
pub struct Called<C> {
    pub operation: Operation<C>,
    pub lent: C,
    refusal: Option<u32>,
    pub expected: C,
}

/// A case of any operation.
pub trait Case {
    fn record(&self) -> Record;
    /// The samples that went through, none where the call is refused.
    fn samples(&self) -> u64;
    /// Whether the archive answers what is expected.
    fn agrees(&self) -> bool;
    /// Of the smallest case that differs: what is lent, what is expected and what the archive answers.
    fn report(&self) -> String;
}

/// How many samples went through: those lent, and no more than the call took, or wrote where it does not say what it took.
fn samples(fields: &[Field]) -> u64 {
    let named = |name| fields.iter().filter(move |field| field.name == name);
    let total = |name| named(name).map(|field| field.values.number()).sum();
    let lent = named("sample").chain(named("samples"));
    let most = match (named("taken").next(), named("written").next()) {
        (Some(_), _) => total("taken"),
        (None, Some(_)) => total("written"),
        (None, None) => u64::MAX,
    };
    let lent: usize = lent.map(|field| field.values.len()).sum();
    most.min(lent as u64)
}

fn words(call: &mut impl Call) -> Vec<Vec<u32>> {
    let fields = call.fields();
    fields.iter().map(|field| field.values.words()).collect()
}

impl<C: Call> Called<C> {
    fn number(&self) -> u32 {
        self.refusal.unwrap_or(0)
    }

    /// The archive's refusal and what it leaves. An answer that it does not write is found, as the places are no zeros before.
    fn answered(&self) -> (u64, C) {
        let mut call = self.lent.clone();
        for field in &mut call.fields() {
            if !field.is_lent() {
                field.values.overwrite();
            }
        }
        ((self.operation.archive)(&mut call), call)
    }
}

impl<C: Call> Case for Called<C> {
    fn record(&self) -> Record {
        let mut record = Record::of(self.operation.code);
        let (mut before, mut after) = (self.lent.clone(), self.expected.clone());
        C::write(&mut record, &mut before, self.refusal, &mut after);
        record
    }

    fn samples(&self) -> u64 {
        match self.number() {
            0 => samples(&self.expected.clone().fields()),
            _ => 0,
        }
    }

    fn agrees(&self) -> bool {
        let (number, mut answered) = self.answered();
        let mut expected = self.expected.clone();
        number == u64::from(self.number()) && words(&mut answered) == words(&mut expected)
    }

    fn report(&self) -> String {
        let least = shrink::smallest(self.clone());
        let (number, mut answered) = least.answered();
        let (mut lent, mut expected) = (least.lent.clone(), least.expected.clone());
        [
            self.operation.name.to_string(),
            report::lent(&lent.fields()),
            report::refusals(least.number(), number),
            report::answers(&expected.fields(), &answered.fields()),
        ]
        .join("\n")
    }
}

pub type Cases = Vec<Box<dyn Case>>;
