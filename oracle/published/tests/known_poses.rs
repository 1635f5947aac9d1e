//! Document 01, "Known poses", of the published text: the Rust that the rest is
//! compared with is the one that document 01 speaks of.

use published::anim_state::{AnimPlayer, PaneAnimation, eval_curve, transform_uv_srt};
use published::bflan::anim_info::{AnimContent, AnimInfo, PaneAnimInfo};
use published::bflan::curves::{Curve, HermiteKey, StepKey};
use published::bflan::file::Bflan;
use published::bflan::targets::AnimTarget;
use published::bflyt::list::MaterialTextureSrt;
use published::bflyt::pane::{HorizontalPosition, Pane, PaneFlags, VerticalPosition};
use published::drawing::{BflytSection, TexturedQuad};
use published::pane_tree::{Corners, PaneNode, PaneTree};
use published::ui::timeline::{PendingKeyEdit, TimelineTrack};
use published::ui2d::types::{Vector2f, Vector3f};

fn hermite(keys: &[(f32, f32, f32)]) -> Curve {
    let key = |&(frame, value, slope)| HermiteKey {
        frame,
        value,
        slope,
    };
    Curve::Hermite(keys.iter().map(key).collect())
}

#[test]
fn curves() {
    let rise = hermite(&[(0.0, 0.0, 0.0), (8.0, 16.0, 0.0)]);
    assert_eq!(eval_curve(&rise, 4.0), 8.0);
    assert_eq!(eval_curve(&rise, 2.0), 2.5);
    let bent = hermite(&[(0.0, 1.0, 2.0), (4.0, 5.0, -2.0)]);
    assert_eq!(eval_curve(&bent, 2.0), 5.0);
    assert_eq!(eval_curve(&hermite(&[]), 2.0), 0.0);
    let step = Curve::Step(vec![StepKey {
        frame: 10.0,
        value: 7,
    }]);
    assert_eq!(eval_curve(&step, 3.0), 7.0);
    let constant = Curve::Constant(vec![4.0, 6.0]);
    assert_eq!(eval_curve(&constant, 9.9), 6.0);
    assert_eq!(eval_curve(&constant, -1.0), 4.0);
}

/// A player of one animation with one curve.
fn player(frame_count: u16, is_looping: bool, curve: Curve) -> AnimPlayer {
    let target = AnimTarget {
        curve,
        ..AnimTarget::default()
    };
    let content = AnimContent {
        infos: vec![AnimInfo::Standard {
            anim_type: Default::default(),
            targets: vec![target],
        }],
        ..AnimContent::default()
    };
    let anim_info = PaneAnimInfo {
        frame_count,
        is_looping,
        contents: vec![content],
        ..PaneAnimInfo::default()
    };
    let mut player = AnimPlayer::new();
    let bflan = Bflan {
        anim_info,
        ..Bflan::default()
    };
    player.load(bflan, None);
    player.play(Some(0), &PaneTree::default(), &mut Default::default());
    player
}

fn ticked(frame: f32, is_looping: bool, dt: f32) -> (f32, bool) {
    let mut player = player(60, is_looping, Curve::default());
    player.anims[0].frame = frame;
    player.tick(dt, 8.0);
    (player.anims[0].frame, player.is_playing())
}

#[test]
fn ticks() {
    assert_eq!(ticked(58.0, true, 0.5), (2.0, true));
    assert_eq!(ticked(58.0, false, 0.5), (60.0, false));
    assert_eq!(ticked(60.0, true, 0.0), (0.0, true));
}

#[test]
fn key_edit() {
    let mut player = player(60, true, hermite(&[(0.0, 0.0, 0.0), (5.0, 0.0, 0.0)]));
    let track = TimelineTrack {
        label: String::new(),
        content_idx: 0,
        info_idx: 0,
        target_idx: 0,
    };
    player.apply_key_edit(&PendingKeyEdit {
        track: track.clone(),
        key_idx: 0,
        frame: -4.0,
        value: 1.0,
    });
    let Some(Curve::Hermite(keys)) = player.anims[0].curve(&track) else {
        panic!("the curve is Hermite");
    };
    assert_eq!((keys[0].frame, keys[0].value), (0.0, 1.0));
}

#[test]
fn uv() {
    let srt = MaterialTextureSrt {
        translate_u: 0.25,
        scale_u: 2.0,
        ..MaterialTextureSrt::default()
    };
    assert_eq!(transform_uv_srt(&srt, [1.0, 0.0]), [1.75, 0.0]);
}

#[test]
fn corners() {
    let top_left = |x, y| {
        let (centre, size) = (Vector2f::new(10.0, 20.0), Vector2f::new(4.0, 2.0));
        Corners::compute(centre, size, &x, &y, Vector3f::default()).top_left
    };
    let centred = top_left(HorizontalPosition::Center, VerticalPosition::Center);
    assert_eq!(centred, Vector2f::new(8.0, 19.0));
    let at_corner = top_left(HorizontalPosition::Left, VerticalPosition::Top);
    assert_eq!(at_corner, Vector2f::new(10.0, 20.0));
}

/// The child's alpha where it and its parent have 0.5.
fn child_alpha(influenced_alpha: bool) -> f32 {
    let half = |children| PaneNode {
        section: BflytSection {
            base: Some(Pane {
                pane_flags: PaneFlags {
                    is_visible: true,
                    influenced_alpha,
                },
                ..Pane::default()
            }),
        },
        textured_quad: Some(TexturedQuad::default()),
        animation: PaneAnimation {
            alpha: Some(0.5),
            ..PaneAnimation::default()
        },
        children,
        ..PaneNode::default()
    };
    let mut tree = PaneTree {
        roots: vec![half(vec![half(Vec::new())])],
        ..PaneTree::default()
    };
    tree.update_animation_visuals();
    tree.roots[0].children[0]
        .textured_quad
        .as_ref()
        .unwrap()
        .alpha
}

#[test]
fn cascade() {
    assert_eq!(child_alpha(true), 0.25);
    assert_eq!(child_alpha(false), 0.5);
}
