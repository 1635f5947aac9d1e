//! What the published text does where docs/DIFFERENCES.md has an intended
//! difference: each smallest input, on the text itself.

use cases::calls::reference::Reference;
use cases::calls::{Request, Tick, View};
use cases::curves::{CONSTANT, HERMITE, Keys, STEP};
use cases::format::load::Arrays;
use cases::sheets::damage;
use published::anim_state::{AnimPlayer, eval_curve, transform_uv_srt};
use published::bflan::file::Bflan;
use published::bflyt::list::MaterialTextureSrt;
use published::pane_tree::Corners;
use published::ui::timeline::{PendingSlopeEdit, TimelineTrack};
use published::ui2d::types::Vector2f;

/// The base's first track is a Hermite curve with three keys.
fn with_frames(frames: [f32; 3]) -> (Reference, Arrays) {
    let mut sheet = damage::sheet::base();
    sheet.frames[..3].copy_from_slice(&frames);
    let reference = Reference::new(&sheet);
    (reference, [sheet.frames, sheet.values, sheet.slopes])
}

fn playing() -> View {
    View {
        selection: 0,
        playing: true,
        preview: true,
        frame: 0.0,
    }
}

/// Refused with 8 or 5: no key is at or before it; one key is enough.
#[test]
#[should_panic]
fn a_nan_query_of_one_hermite_key() {
    let mut keys = Keys::of_kind(HERMITE);
    keys.push(0.0, 0.0, 0.0);
    eval_curve(&keys.curve(), f32::NAN);
}

/// Refused with 9: the text puts the key behind the next one.
#[test]
fn an_edit_without_room() {
    let (mut reference, mut keys) = with_frames([1.0; 3]);
    let (frame, value) = (1.0, 0.0);
    reference.edit(0, 0, 1, Request::Key { frame, value });
    reference.take(0, &mut keys);
    assert_eq!(keys[0][..3], [1.0, 1.0 + 0.01, 1.0]);
}

/// Refused with 8: the text leaves a NaN in the key.
#[test]
fn an_edit_to_a_nan() {
    let (mut reference, mut keys) = with_frames([0.0, 4.0, 8.0]);
    let (frame, value) = (f32::NAN, 0.0);
    reference.edit(0, 0, 1, Request::Key { frame, value });
    reference.take(0, &mut keys);
    assert!(keys[0][1].is_nan());
}

/// Refused with 10: the text does nothing.
#[test]
fn a_slope_of_a_step() {
    let (mut reference, keys) = with_frames([0.0, 4.0, 8.0]);
    reference.edit(0, 1, 1, Request::Slope(1.0));
    let mut after = keys.clone();
    reference.take_all(&mut after);
    assert_eq!(after, keys);
}

/// Refused with 7: the text does nothing.
#[test]
fn an_edit_of_no_key() {
    let (mut reference, keys) = with_frames([0.0, 4.0, 8.0]);
    let (frame, value) = (9.0, 9.0);
    reference.edit(0, 0, 3, Request::Key { frame, value });
    let mut after = keys.clone();
    reference.take_all(&mut after);
    assert_eq!(after, keys);
}

/// Refused with 6: the text does nothing.
#[test]
fn an_edit_with_nothing_selected() {
    let mut player = AnimPlayer::new();
    player.load(Bflan::default(), None);
    player.apply_slope_edit(&PendingSlopeEdit {
        track: TimelineTrack {
            label: String::new(),
            content_idx: 0,
            info_idx: 0,
            target_idx: 0,
        },
        key_idx: 0,
        slope: 1.0,
    });
    assert!(player.active.is_none());
}

/// Refused with 6.
#[test]
#[should_panic]
fn play_from_a_up() {
    let (mut reference, _) = with_frames([0.0, 4.0, 8.0]);
    reference.play(View::FRESH, 2);
}

/// Refused with 8: the text's frame becomes infinite, and its remainder a NaN.
#[test]
fn a_tick_past_all_numbers() {
    let (mut reference, _) = with_frames([0.0, 4.0, 8.0]);
    let (view, _) = reference.tick(playing(), f32::MAX, 2.0);
    assert!(view.frame.is_nan());
}

/// Refused with 8 or 5: the text gives key 0's value.
#[test]
fn a_nan_query_of_a_constant_or_a_step() {
    for kind in [CONSTANT, STEP] {
        let mut keys = Keys::of_kind(kind);
        keys.push(0.0, 7.0, 0.0);
        assert_eq!(eval_curve(&keys.curve(), f32::NAN), 7.0);
    }
}

/// Refused with 8: the text holds the frame.
#[test]
fn a_pose_at_an_infinity() {
    let (mut reference, _) = with_frames([0.0, 4.0, 8.0]);
    let view = reference.pose(View::FRESH, 0, f32::INFINITY);
    assert_eq!(view.frame, f32::INFINITY);
}

/// Refused with 8: the text does nothing.
#[test]
fn an_idle_tick_of_a_nan() {
    let (mut reference, _) = with_frames([0.0, 4.0, 8.0]);
    let (view, tick) = reference.tick(View::FRESH, f32::NAN, 1.0);
    assert_eq!((view.frame, tick), (0.0, Tick::Idle));
}

/// Refused with 8: the text's frame becomes a NaN.
#[test]
fn a_playing_tick_of_a_nan() {
    let (mut reference, _) = with_frames([0.0, 4.0, 8.0]);
    let (view, tick) = reference.tick(playing(), f32::NAN, 1.0);
    assert!(view.frame.is_nan() && tick == Tick::Running);
}

/// Refused with 8: the text ends at the frame count.
#[test]
fn a_tick_past_all_numbers_that_does_not_loop() {
    let mut sheet = damage::sheet::base();
    sheet.animations[0].looping = 0;
    let mut reference = Reference::new(&sheet);
    let (view, _) = reference.tick(playing(), f32::MAX, 2.0);
    assert_eq!((view.frame, view.playing), (60.0, false));
}

/// Refused with 8: the text's frame is minus infinity.
#[test]
fn a_tick_below_all_numbers() {
    let (mut reference, _) = with_frames([0.0, 4.0, 8.0]);
    let (view, tick) = reference.tick(playing(), -f32::MAX, 2.0);
    assert_eq!((view.frame, tick), (f32::NEG_INFINITY, Tick::Running));
}

/// Refused with 8: the text stores the clamped frame.
#[test]
fn an_edit_to_an_infinite_frame() {
    for (frame, clamped) in [(f32::INFINITY, 8.0 - 0.01), (f32::NEG_INFINITY, 0.0 + 0.01)] {
        let (mut reference, _) = with_frames([0.0, 4.0, 8.0]);
        reference.edit(0, 0, 1, Request::Key { frame, value: 0.0 });
        assert_eq!(reference.key(0, 1)[0], clamped);
    }
}

/// Refused with 8: the text stores the held value.
#[test]
fn a_step_edit_to_an_infinite_value() {
    for (value, held) in [
        (f32::INFINITY, 65535.0),
        (f32::NEG_INFINITY, 0.0),
        (f32::NAN, 0.0),
    ] {
        let (mut reference, _) = with_frames([0.0, 4.0, 8.0]);
        reference.edit(0, 1, 1, Request::Key { frame: 1.0, value });
        assert_eq!(reference.key(1, 1)[1], held);
    }
}

/// Refused with 12: the text turns by the angle.
#[test]
fn an_angle_above_the_limit() {
    let rotate = f32::from_bits(0x4561_0001);
    let srt = MaterialTextureSrt {
        translate_u: 0.0,
        translate_v: 0.0,
        rotate,
        scale_u: 1.0,
        scale_v: 1.0,
    };
    let [u, v] = transform_uv_srt(&srt, [1.0, 0.0]);
    assert!((u - 1.0).abs() < 1e-5 && v.abs() < 1e-5);
}

/// Refused with 8: the text adds to the NaN.
#[test]
fn a_corner_that_is_a_nan() {
    let zero = Vector2f::new(0.0, 0.0);
    let corners = Corners {
        top_left: Vector2f::new(f32::NAN, 0.0),
        top_right: zero,
        bottom_left: zero,
        bottom_right: zero,
    };
    assert!(corners.translate(Vector2f::new(1.0, 1.0)).to_array()[0][0].is_nan());
}
