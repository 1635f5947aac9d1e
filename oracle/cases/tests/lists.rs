//! The plain machine beside the player with its journal, over many lists, and
//! what the lists reach. `Walk` itself holds the two against each other.

use cases::calls::drags::{self, Drags};
use cases::calls::ends::{self, NextNames};
use cases::calls::held::Held;
use cases::calls::unchanged::Unchanged;
use cases::calls::walk::{Step, Walk};
use cases::calls::{Call, NONE, Tick, Told, views};
use cases::format::load;
use cases::random::Random;
use cases::sheets::damage;

#[test]
fn lists_reach_every_refusal_and_long_journals() {
    let mut refusals = [0u64; 16];
    let (mut calls, mut spoils, mut long, mut plain) = (0u64, 0u64, 0u64, 0u64);
    let mut next_names = NextNames::default();
    let mut drags = Drags::default();
    let mut slots = [0u64; 3];
    for seed in 0..8000 {
        let mut walk = Walk::of_seed(seed);
        let mut most = 0;
        let mut drag = walk.held.player.drag;
        while let Some(step) = walk.step() {
            match step {
                Step::Called(call, answer) => {
                    refusals[usize::from(answer.refusal)] += 1;
                    calls += 1;
                    drags.add(&call, &answer, &drag);
                    if let Told::Tick(tick) = &answer.told {
                        next_names.add(tick);
                    }
                    if let Call::TextureName { slot, .. } = call {
                        let outside = [3, 4, NONE].iter().position(|&n| n == slot);
                        outside.into_iter().for_each(|i| slots[i] += 1);
                    }
                }
                Step::Spoiled(_) => spoils += 1,
            }
            most = most.max(walk.held.player.accepted);
            drag = walk.held.player.drag;
        }
        long += u64::from(most > 128);
        plain += u64::from(walk.is_plain());
    }
    println!("{calls} calls, {spoils} spoils, {refusals:?}, {long} long, {plain} plain to the end");
    let can_occur = [1, 2, 3, 4, 5, 6, 7, 8, 9, 10, 11, 13, 14, 15];
    assert!(can_occur.iter().all(|&n| refusals[n] > 50), "{refusals:?}");
    assert!(refusals[0] > calls / 2, "{refusals:?}");
    assert!(long > 50, "{long}");
    println!("{:?}", drags.each());
    assert!(drags.each().iter().all(|(_, count)| *count > 200));
    println!("{next_names:?}, slots {slots:?}");
    assert!(next_names.of_length.iter().all(|&n| n > 10));
    assert!(next_names.wide > 50);
    assert!(next_names.without > 50);
    assert!(slots.iter().all(|&n| n > 10), "{slots:?}");
}

/// Each state of a drag is met by each call, and a drop on the starting bits where there
/// is room; row 9 where there is none.
#[test]
fn short_lists_of_drags() {
    let mut unchanged = Unchanged::default();
    for case in drags::cases() {
        let mut drags = Drags::default();
        let mut refusals = [0u64; 16];
        for number in 0..drags::COUNT {
            let mut walk = Walk::new(Random::new(0), &case.sheet, &case.book, 0);
            for (i, call) in case.list(number).into_iter().enumerate() {
                let before = walk.held.player.drag;
                let Step::Called(_, answer) = walk.call(call) else {
                    panic!("{call:?} is a call");
                };
                assert!(i >= case.start.len() || answer.refusal == 0, "{call:?}");
                drags.add(&call, &answer, &before);
                unchanged.add(&call, &answer, walk.held.player.redo);
                refusals[usize::from(answer.refusal)] += 1;
            }
        }
        println!("{}: {refusals:?} {:?}", case.what, drags.each());
        let room = case.what != "no room";
        let met = |(what, count): &(&str, u64)| *count > 0 || (!room && *what == drags::BACK);
        assert!(drags.each().iter().all(met));
        let away = if case.what == "nothing active" { 6 } else { 7 };
        assert!([away, 11, 15].iter().all(|&n| refusals[n] > 0));
        assert_eq!(refusals[9] > 0, !room);
    }
    println!("unchanged: {unchanged}");
    assert!(unchanged.is_whole());
}

/// What is saved is the loaded sheet where no edit stands, and loads as the keys
/// held.
#[test]
fn saves_keep_the_sheet_and_hold_the_keys() {
    let mut refusals = [0u64; 16];
    let (mut unedited, mut undone) = (0u64, 0u64);
    for seed in 0..4000 {
        let mut walk = Walk::of_seed(seed);
        while let Some(step) = walk.step() {
            let Step::Called(Call::Save { .. }, answer) = step else {
                continue;
            };
            refusals[usize::from(answer.refusal)] += 1;
            let Some(written) = answer.saved() else {
                continue;
            };
            assert_loads(written, &walk.held);
            if walk.is_unedited() {
                assert!(written == walk.held.sheet_bytes);
                unedited += 1;
                undone += u64::from(walk.held.player.accepted > 0);
            }
        }
    }
    println!("{refusals:?}, {unedited} with no standing edit, {undone} of them after some");
    let can_occur = [0, 1, 3, 4, 5, 14];
    let met = refusals.iter().enumerate().filter(|(_, n)| **n > 0);
    assert_eq!(met.map(|(i, _)| i).collect::<Vec<_>>(), can_occur);
    assert!(can_occur.iter().all(|&n| refusals[n] > 50), "{refusals:?}");
    assert!(unedited > undone && undone > 50);
}

fn assert_loads(written: &[u8], held: &Held) {
    let arrays = held.keys.each_ref().map(|array| vec![-77.0; array.len()]);
    let loaded = load::answer(written, &arrays);
    assert_eq!((loaded.refusal, loaded.arrays), (0, held.key_bits()));
}

/// Eight names of each length, each with four frame counts.
#[test]
fn animations_end_with_names_of_every_length() {
    let (_, book) = damage::base_pair();
    let mut next_names = NextNames::default();
    for (sheet, list) in ends::each() {
        let mut walk = Walk::new(Random::new(0), &sheet, &book, 0);
        for call in list {
            if let Step::Called(_, answer) = walk.call(call)
                && let Told::Tick(tick) = answer.told
            {
                next_names.add(&tick);
            }
        }
    }
    println!("{next_names:?}");
    // A looping animation of no frames ends too.
    assert_eq!(next_names.of_length, [8 * 5; 25]);
    assert!(next_names.wide > 200);
}

/// Ticks of every kind; an idle one moves nothing, and none but it is idle.
#[test]
fn ticks_in_every_view() {
    let mut ticks = [0u64; 4];
    for (sheet, book) in views::pairs() {
        let mut walk = Walk::new(Random::new(0), &sheet, &book, 0);
        for view in views::views(&sheet) {
            for call in views::calls(&sheet) {
                for spoil in views::spoils(&view) {
                    walk.spoil(&spoil);
                }
                let before = walk.held.player.clone();
                let Step::Called(Call::Tick { dt, fps }, answer) = walk.call(call) else {
                    continue;
                };
                if answer.refusal != 0 {
                    assert_eq!(walk.held.player, before);
                    continue;
                }
                assert!(dt.is_finite() && fps.is_finite());
                let Told::Tick(tick) = answer.told else {
                    panic!("{call:?} is a tick");
                };
                ticks[usize::from(tick.number())] += 1;
                let idle = view.selection == NONE || !view.playing;
                assert_eq!(tick == Tick::Idle, idle, "{view:?} {call:?}");
                if idle {
                    assert_eq!(walk.held.player, before);
                }
            }
        }
    }
    println!("{ticks:?}");
    assert!(ticks.iter().all(|&n| n > 1000), "{ticks:?}");
}
