//! `geometry COUNT SEED`: the Rust's UVs and corners beside the proved ones, by
//! every whole and half degree and then on COUNT random cases of each, refusals
//! included.

use cases::geometry::{corners, moves, uvs};
use cases::random::Random;
use compare::arguments::Arguments;
use compare::shapes;
use compare::tally::Tally;

/// What stands in an output before the call: a refused call leaves it.
const BEFORE: f32 = -77.0;

fn main() {
    let Arguments { count, seed } = Arguments::read(5_000_000);
    let mut tally = Tally::default();
    uvs::each_turn(|case| compare_uvs(&mut tally, case));
    tally.report("UVs by half degrees");
    let mut tally = Tally::default();
    corners::each_turn(|case| compare_corners(&mut tally, case));
    tally.report("corners by half degrees");

    let mut random = Random::new(seed);
    let mut tallies: [Tally; 4] = Default::default();
    for _ in 0..count {
        compare_uvs(&mut tallies[0], &uvs::some(&mut random));
        compare_corners(&mut tallies[1], &corners::some(&mut random));
        compare_translate(&mut tallies[2], &moves::some_translate(&mut random));
        compare_rotate(&mut tallies[3], &moves::some_rotate(&mut random));
    }
    for (tally, family) in tallies
        .iter()
        .zip(["UVs", "corners", "translate", "rotate_point"])
    {
        tally.report(&format!("{family}, seed {seed}"));
    }
}

fn compare_uvs(tally: &mut Tally, case: &uvs::Case) {
    let rust = uvs::answer(case, BEFORE);
    tally.add(rust, shapes::uvs(case, BEFORE), || format!("{case:?}"));
}

fn compare_corners(tally: &mut Tally, case: &corners::Case) {
    let rust = corners::answer(case);
    tally.add(rust, shapes::corners(case), || format!("{case:?}"));
}

fn compare_translate(tally: &mut Tally, case: &moves::Translate) {
    let rust = moves::translated(case);
    tally.add(rust, shapes::translate(case), || format!("{case:?}"));
}

fn compare_rotate(tally: &mut Tally, case: &moves::Rotate) {
    let rust = moves::rotated(case);
    tally.add(rust, shapes::rotate_point(case), || format!("{case:?}"));
}
