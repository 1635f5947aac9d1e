//! The last of some rows of a table of frames, of one plan and of a plan each, is
//! what the Rust's `evaluate` gives at its frame.

use cases::random::Random;
use cases::readings::some;
use compare::last_rows::LastRows;

#[test]
fn last_rows_are_those_of_the_rust() {
    let mut random = Random::new(1);
    let mut last_rows = LastRows::default();
    for _ in 0..2000 {
        let case = some::case(&mut random);
        last_rows.add(&mut random, &case);
    }
    assert_eq!(last_rows.of_one_plan.first(), None);
    assert_eq!(last_rows.of_a_plan_each.first(), None);
    assert!(last_rows.compared_some());
}

#[test]
fn a_run_that_compared_none_is_told() {
    assert!(!LastRows::default().compared_some());
}
