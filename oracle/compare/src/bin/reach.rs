//! `reach COUNT SEED`: random menus and lists of edits by the proved library, until COUNT
//! edits were accepted. After each edit, and after each list as one, everything is read
//! with the keys before and after, at every whole frame of every animation and at some
//! others: all channels, every pane by itself and under its parents, every layer and every
//! texture name. Only what `menu_reach` marks may differ, its marks must be those of the
//! plain definition, and what a broken argument must decline is declined. One edited key
//! may be read only between its neighbours, or where a Constant picks it; the tracks that
//! are apart by the proved code are those whose channel differs. The published Rust reads
//! a sample, and so the same channels differ in it; and the lists of a sample are given to
//! `menu_cli reach`, which must write just what differs. A run fails with the smallest menu
//! with which something is wrong, and where a kind of edit, curve or effect was never met;
//! a COUNT below 20,000 may be too small for that.

use cases::random::Random;
use compare::arguments::Arguments;
use compare::reach::Run;

fn main() {
    let Arguments { count, seed } = Arguments::read(1_000_000);
    let mut seeds = Random::new(seed);
    let mut run = Run::default();
    while run.edits < count {
        run.list(seeds.word());
    }
    run.report(seed);
}
