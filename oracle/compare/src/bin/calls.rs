//! `calls COUNT SEED`: lists of calls on the plain machine, whose calls mean what
//! the published text says, beside the proved player: every answer and output,
//! all keys and the whole player after each. A tick that ends with a next name
//! must be one of the Rust's that returned that name. What a save wrote must be
//! the loaded sheet where no edit stands or is made by a drag, load as the keys held,
//! and be saved again as it is. First every short list over a few calls; then every
//! short list over a drag; then animations that end, with a next name of every length;
//! then plays, poses, ticks, readings and saves in every kind of view, while no drag
//! is open and while one is; then every field, journal row and key spoiled alone; then
//! random lists, until COUNT of their calls were compared. In all but the second of
//! these some tick must end with a next name and some without one; in the short and
//! the random lists some save must come with all edits undone and some give another
//! sheet; in those with edits some of each kind must be unchanged and some not, and
//! some unchanged ones keep something to redo; and in those with drags each state of
//! one must be met by each call that can. A COUNT below 20,000 may be too small for
//! that. `calls 0 SEED` runs the one random list of that seed, and tells its steps.

use cases::calls::{drags, ends, short};
use cases::random::Random;
use compare::arguments::Arguments;
use compare::lists::{Counts, Difference};

fn main() {
    let Arguments { count, seed } = Arguments::read(1_000_000);
    let mut counts = Counts::default();
    if count == 0 {
        let found = counts.run(seed, |step| println!("{step:?}"));
        report(&counts, "one list", found.map(|d| d.what));
        return;
    }
    let found = counts.each_short_list();
    let (lists, sheets) = (short::COUNT, ends::pairs().len());
    let what = format!("{lists} short lists on each of {sheets} sheets");
    report_part(&counts, &what, found);
    require_saves(&counts, &what);
    require_unchanged(&counts, &what);

    let mut counts = Counts::default();
    let found = counts.each_short_drag();
    let (lists, cases) = (drags::COUNT, drags::cases().len());
    let what = format!("{lists} short lists over a drag in each of {cases} cases");
    report(&counts, &what, found);
    require_saves(&counts, &what);
    require_drags(&counts, &what);
    require_unchanged(&counts, &what);

    let mut counts = Counts::default();
    let found = counts.each_end();
    report_part(&counts, "animations that end", found);

    let mut counts = Counts::default();
    let found = counts.each_view();
    report_part(&counts, "each view", found);

    let mut counts = Counts::default();
    let found = counts.each_spoil_alone();
    report_part(&counts, "each thing spoiled alone", found);
    require_drags(&counts, "each thing spoiled alone");
    require_unchanged(&counts, "each thing spoiled alone");

    let mut counts = Counts::default();
    let found = random_lists(&mut counts, count, seed);
    counts.print_lists();
    let what = format!("random lists, seed {seed}");
    report_part(&counts, &what, found);
    require_saves(&counts, &what);
    require_drags(&counts, &what);
    require_unchanged(&counts, &what);
}

/// Random lists until so many calls were made; of those that differ, the one
/// that does so after the fewest steps.
fn random_lists(counts: &mut Counts, count: u64, seed: u64) -> Option<String> {
    let mut seeds = Random::new(seed);
    let mut smallest: Option<Difference> = None;
    while counts.calls < count {
        let found = counts.run(seeds.word(), |_| {});
        let before = smallest.as_ref().map_or(usize::MAX, |d| d.steps);
        if found.as_ref().is_some_and(|d| d.steps < before) {
            smallest = found;
        }
    }
    let differ = counts.differ;
    smallest.map(|Difference { seed, steps, what }| {
        format!("{differ} lists; the smallest has seed {seed}, at step {steps}: {what}")
    })
}

/// Tells how many calls there were of each kind and of each refusal. A run with
/// a difference fails.
fn report(counts: &Counts, what: &str, differs: Option<String>) {
    counts.print_calls();
    if let Some(difference) = differs {
        println!("{what}: differs in {difference}");
        std::process::exit(1);
    }
    println!("{what}: {} calls compared, none differ", counts.calls);
}

/// The same for a part of the run, which fails too where its ticks didn't end both
/// ways: it would have compared no next name, or no end without one.
fn report_part(counts: &Counts, what: &str, differs: Option<String>) {
    report(counts, what, differs);
    if !counts.ended_both_ways() {
        println!("{what}: no tick ended with a next name, or none without one");
        std::process::exit(1);
    }
}

/// A part with edits fails too where no save came with all undone, or each gave the
/// loaded sheet.
fn require_saves(counts: &Counts, what: &str) {
    if !counts.saved_both_ways() {
        println!("{what}: no save came with all edits undone, or none gave another sheet");
        std::process::exit(1);
    }
}

/// A part with drags fails too where a state of one was not met by a call that can.
fn require_drags(counts: &Counts, what: &str) {
    if !counts.dragged_all_ways() {
        println!("{what}: some call never met a drag in some state");
        std::process::exit(1);
    }
}

/// A part with edits fails too where all of a kind were unchanged or none was, or none
/// of them kept something to redo.
fn require_unchanged(counts: &Counts, what: &str) {
    if !counts.edited_both_ways() {
        println!("{what}: edits, drags or drops were not unchanged and otherwise");
        std::process::exit(1);
    }
}
