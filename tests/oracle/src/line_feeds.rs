//! A line that is opened and fed so many times: after each feed, what demand 3 says of the outputs of every sample taken so far.

use crate::archive::{line, word};
use crate::calls::{Buffers, Single};
use crate::case::{Call, Case, Operation};
use crate::field::{Field, Fields, Role, fields};
use crate::gauge_line::Line;
use crate::lent::{LONGEST, Lent, Slice};
use crate::line_calls::{Feed, Open};
use crate::line_samples;
use crate::line_settings::{self, Settings};
use crate::record::Record;
use crate::rng::Rng;
use crate::samples;
use crate::search;
use crate::settings;

const FEEDS: Operation<Feeds> = Operation {
    code: 0xc2,
    name: "Line::open, then Line::feed",
    refusal: Some(|call| call.settings.refusal()),
    rust: Feeds::feed,
    archive: Feeds::run,
};

/// For reports.
const FEED_NAMES: [&str; 6] = ["feed 1", "feed 2", "feed 3", "feed 4", "feed 5", "feed 6"];

fields! {
    /// One feed: what it is lent, and what it answers.
    pub struct Fed {
        samples: Slice<i32>,
        span: Slice<f32>,
        refusal: u32,
        taken: u64,
        written: u64,
        cuts: u32,
    }
}

impl Fed {
    pub fn of(samples: Slice<i32>, span: Lent) -> Self {
        Fed {
            samples,
            span: Slice::span(span),
            refusal: 0,
            taken: 0,
            written: 0,
            cuts: 0,
        }
    }

    /// Through the archive, on the line that is handed back.
    pub fn run(&mut self, line: Line) -> Line {
        let buffers = Buffers {
            samples: self.samples.clone(),
            span: self.span.clone(),
        };
        let mut call: Feed = Single::of(line, buffers);
        self.refusal = word(line::feed(&mut call));
        self.span = call.lent.span;
        self.taken = call.answer.taken;
        self.written = call.answer.written;
        self.cuts = call.state.cuts;
        call.state
    }

    /// The first two are lent.
    pub fn fields_and_answers(&mut self) -> Vec<Field<'_>> {
        let mut fields = self.fields();
        for answer in &mut fields[2..] {
            answer.role = Role::Answer;
        }
        fields
    }
}

/// "freshly opened and given any list of feeds .. each getting the line that the one before returned".
#[derive(Clone)]
pub struct Feeds {
    pub settings: Settings,
    pub feeds: Vec<Fed>,
}

impl Feeds {
    fn feed(&mut self) {
        let mut past = Past::default();
        for fed in &mut self.feeds {
            past.feed(&self.settings, fed);
        }
    }

    /// Through the archive: a line that is not opened is not fed.
    fn run(&mut self) -> u64 {
        let mut opening: Open = Single::of((), self.settings.clone());
        let refusal = line::open(&mut opening);
        let mut line = opening.answer.0;
        for fed in &mut self.feeds {
            (fed.refusal, fed.taken, fed.written, fed.cuts) = (0, 0, 0, 0);
            if refusal == 0 {
                line = fed.run(line);
            }
        }
        refusal
    }
}

impl Call for Feeds {
    fn fields(&mut self) -> Vec<Field<'_>> {
        let mut fields = self.settings.fields();
        for (i, fed) in self.feeds.iter_mut().enumerate() {
            let part = FEED_NAMES.get(i).unwrap_or(&"a later feed");
            let named = |field| Field { part, ..field };
            fields.extend(fed.fields_and_answers().into_iter().map(named));
        }
        fields
    }

    fn fewer(&self) -> Vec<Self> {
        let without = |i| {
            let mut fewer = self.clone();
            fewer.feeds.remove(i);
            fewer
        };
        (0..self.feeds.len()).map(without).collect()
    }

    /// Each feed's answers follow what it is lent.
    fn write(record: &mut Record, before: &mut Self, _: Option<u32>, after: &mut Self) {
        for field in before.settings.fields() {
            record.input(&field);
        }
        record.word(before.feeds.len() as u32);
        for (before, after) in before.feeds.iter_mut().zip(&mut after.feeds) {
            record.call(
                &before.fields_and_answers(),
                None,
                &after.fields_and_answers(),
            );
        }
    }
}

/// Every sample taken so far, and how many outputs were written.
#[derive(Default)]
struct Past {
    list: Vec<i32>,
    written: usize,
}

impl Past {
    /// How many outputs are to be written if all of the samples lent are taken.
    fn rest(&self, settings: &Settings, lent: &[i32]) -> usize {
        let list = [&self.list[..], lent].concat();
        settings.outputs(&list).len() - self.written
    }

    /// Demand 3: the fewest samples whose outputs fill the span, and all where it stays short.
    fn taken(&self, settings: &Settings, lent: &[i32], places: usize) -> usize {
        let list = [&self.list[..], lent].concat();
        let values = settings.values(&list);
        let wanted = self.written + places;
        let fills = |count| settings.resampled(&values[..count]).len() >= wanted;
        let enough = search::least(values.len() + 1, fills);
        let makes = |taken| settings.value_count(self.list.len() + taken) >= enough;
        search::least(lent.len(), makes)
    }

    /// What a feed takes and writes: the outputs are those of every sample taken so far.
    fn feed(&mut self, settings: &Settings, fed: &mut Fed) {
        let (lent, span) = (&fed.samples.elements, &mut fed.span.elements);
        let taken = self.taken(settings, lent, span.len());
        self.list.extend(&lent[..taken]);
        let outputs = settings.outputs(&self.list);
        let rest = &outputs[self.written..];
        let written = rest.len().min(span.len());
        span[..written].copy_from_slice(&rest[..written]);
        self.written += written;
        fed.taken = taken as u64;
        fed.written = written as u64;
        fed.cuts = settings.cuts(&self.list);
    }
}

fn some_feed(rng: &mut Rng, settings: &Settings, past: &mut Past) -> Fed {
    let length = line_samples::some_length(rng, settings);
    let samples: Slice<i32> = line_samples::list(rng, length).into();
    let outputs = past.rest(settings, &samples.elements);
    let places = line_samples::some_places(rng, outputs as u64);
    let lent = Fed::of(samples, samples::span(rng, places));
    past.feed(settings, &mut lent.clone());
    lent
}

fn case(settings: Settings, feeds: Vec<Fed>) -> Box<dyn Case> {
    Box::new(FEEDS.case(Feeds { settings, feeds }))
}

pub fn some_case(rng: &mut Rng) -> Box<dyn Case> {
    let settings = line_settings::good(rng);
    let mut past = Past::default();
    let feeds = (0..rng.within(1, 6))
        .map(|_| some_feed(rng, &settings, &mut past))
        .collect();
    case(settings, feeds)
}

/// A few long feeds, with spans that are filled and spans that are not.
pub fn long_case(rng: &mut Rng) -> Box<dyn Case> {
    let settings = line_settings::any_good(rng);
    let outputs = rng.within(2_000, 20_000);
    let length = (outputs as f32 * settings.samples_for_output()) as u64;
    let length = length.min(4 * LONGEST);
    let count = rng.within(1, 4);
    let mut long_feed = || {
        let samples = line_samples::noise(rng, length);
        let places = settings::places_around(rng, outputs);
        Fed::of(samples.into(), samples::span(rng, places))
    };
    let feeds = (0..count).map(|_| long_feed()).collect();
    case(settings, feeds)
}
