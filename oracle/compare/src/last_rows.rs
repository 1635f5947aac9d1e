//! The last of some rows of a table of frames, by one plan and by a plan for each
//! row, beside the Rust's `evaluate` at its frame.

use crate::probe::readings::{read_frames, read_times};
use crate::tally::Tally;
use cases::random::Random;
use cases::readings::rows::Rows;
use cases::readings::{Case, some, whole};

/// One in so many cases is followed by a crowded one: random cases hardly ever have
/// the many names with which a plan searches by an index.
const CROWDED: usize = 16;

#[derive(Default)]
pub struct LastRows {
    pub of_one_plan: Tally,
    pub of_a_plan_each: Tally,
    /// How many the Rust reads otherwise than the first row: ours would differ if
    /// they were read at a wrong frame.
    pub moved: u64,
}

impl LastRows {
    /// Rows of the case, and now and then of a crowded one.
    pub fn add(&mut self, random: &mut Random, case: &Case) {
        self.compare(random, case);
        if random.once_in(CROWDED) {
            let crowded = some::crowded(random);
            self.compare(random, &crowded);
        }
    }

    /// A case with nothing active has no rows.
    fn compare(&mut self, random: &mut Random, case: &Case) {
        let Some((animation, first)) = case.active else {
            return;
        };
        let rows = Rows::some(random, &case.sheet, first);
        let reading = |frame| {
            let state = whole::state_at(case, animation, frame);
            Some(whole::reading(&case.book, &state))
        };
        let rust = reading(rows.last(first));
        self.moved += u64::from(rust != reading(first));
        let asked = || format!("{rows:?} of {case:?}");
        self.of_one_plan.add(&rust, &read_frames(case, rows), asked);
        self.of_a_plan_each
            .add(&rust, &read_times(case, rows), asked);
    }

    /// Whether rows were compared both ways, some of them not as the first.
    pub fn compared_some(&self) -> bool {
        [
            self.of_one_plan.compared,
            self.of_a_plan_each.compared,
            self.moved,
        ]
        .iter()
        .all(|&count| count > 0)
    }

    /// Prints how many. A run with a difference fails, and one that compared none.
    pub fn report(&self, which: &str) {
        println!("{} last rows are not as the first", self.moved);
        self.of_one_plan
            .report(&format!("last rows of one plan, {which}"));
        self.of_a_plan_each
            .report(&format!("last rows of a plan each, {which}"));
        if !self.compared_some() {
            println!("{which}: no last rows were compared, or all were as the first");
            std::process::exit(1);
        }
    }
}
