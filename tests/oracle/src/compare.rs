//! The cases through the archive, each answer against what is expected.

use crate::case::{Case, Cases};
use crate::request::Request;
use crate::rng::Rng;

/// What went through both sides.
#[derive(Default)]
pub struct Done {
    pub cases: usize,
    pub samples: u64,
}

impl Done {
    /// Counts the cases in, or stops at one that differs.
    fn compare(&mut self, cases: Cases) -> Result<(), Difference> {
        for case in cases {
            self.cases += 1;
            if !case.agrees() {
                let number = self.cases;
                return Err(Difference { number, case });
            }
            self.samples += case.samples();
        }
        Ok(())
    }
}

/// The next cases: at most so many while some are left, then long ones.
fn draw(request: &Request, left: usize, rng: &mut Rng) -> Cases {
    let converter = rng.pick(&request.converters);
    if left == 0 {
        return (converter.long)(rng);
    }
    let mut cases = match rng.one_in(4) {
        true => (converter.more)(rng),
        false => (converter.cases)(rng),
    };
    cases.truncate(left);
    cases
}

/// A case whose answers differ, counted from 1.
pub struct Difference {
    pub number: usize,
    pub case: Box<dyn Case>,
}

/// The fixed cases and all that was wanted, or the first difference.
pub fn compare(request: &Request) -> Result<Done, Difference> {
    let mut rng = Rng::new(request.seed);
    let mut done = Done::default();
    for converter in &request.converters {
        done.compare((converter.fixed)())?;
    }
    let wanted = done.cases + request.cases;
    while done.cases < wanted || done.samples < request.samples {
        let left = wanted.saturating_sub(done.cases);
        done.compare(draw(request, left, &mut rng))?;
    }
    Ok(done)
}
