//! The published player over a sheet: what play, pose, tick, both edits and
//! evaluation mean, by the text itself.

use super::{NONE, Request, Tick, View};
use crate::curves::Keys;
use crate::format::load::Arrays;
use crate::format::sheet::{Sheet, Target};
use crate::format::{Name, name, text_of};
use crate::readings::published_form as form;
use published::anim_state::{AnimPlayer, AnimationState};
use published::bflan::curves::Curve;
use published::bflan::file::{AnimTag, Bflan};
use published::pane_tree::{PaneId, PaneTree};
use published::ui::timeline::{PendingKeyEdit, PendingSlopeEdit, TimelineTrack};
use published::ui2d::userdata::{UserData, UserDataArray, UserDataContent};
use std::collections::{HashMap, HashSet};
use std::ops::Range;

/// The user data in which the published text finds the next animation's name.
const NEXT: &str = "CommandPlayEnd_Play";

pub struct Reference {
    player: AnimPlayer,
    tracks: Vec<Track>,
    tree: PaneTree,
}

/// Where a target of the sheet is in the published form.
struct Track {
    animation: usize,
    curve: u8,
    keys: Range<usize>,
    place: TimelineTrack,
}

impl Reference {
    /// The player freshly loaded, with the sheet's own keys.
    pub fn new(sheet: &Sheet) -> Self {
        let mut player = AnimPlayer::new();
        (0..sheet.animations.len()).for_each(|i| player.load(bflan(sheet, i), None));
        let tracks = sheet.targets.iter().enumerate();
        Self {
            player,
            tracks: tracks.map(|(i, t)| Track::new(sheet, i, t)).collect(),
            tree: PaneTree::default(),
        }
    }

    /// Gives every track the curve that its part of the arrays is. They follow
    /// the key rules.
    pub fn put_all(&mut self, keys: &Arrays) {
        (0..self.tracks.len()).for_each(|track| self.put(track, keys));
    }

    /// The same for one track.
    pub fn put(&mut self, track: usize, keys: &Arrays) {
        let at = &self.tracks[track];
        let [frames, values, slopes] = keys.each_ref().map(|array| array[at.keys.clone()].to_vec());
        let own = Keys {
            kind: at.curve,
            frames,
            values,
            slopes,
        };
        let instance = &mut self.player.anims[at.animation];
        *instance.curve_mut(&at.place).expect("the track's curve") = own.curve();
    }

    /// Writes every track's curve into the arrays.
    pub fn take_all(&self, keys: &mut Arrays) {
        (0..self.tracks.len()).for_each(|track| self.take(track, keys));
    }

    /// The same for one track. A Constant's frame, and the slope of a Constant
    /// and of a Step, are +0 by the key rules.
    pub fn take(&self, track: usize, keys: &mut Arrays) {
        for (key, place) in self.tracks[track].keys.clone().enumerate() {
            let numbers = self.key(track, key);
            (0..3).for_each(|i| keys[i][place] = numbers[i]);
        }
    }

    /// A key's frame, value and slope.
    pub fn key(&self, track: usize, key: usize) -> [f32; 3] {
        let at = &self.tracks[track];
        match self.player.anims[at.animation].curve(&at.place) {
            Some(Curve::Constant(keys)) => [0.0, keys[key], 0.0],
            Some(Curve::Step(keys)) => [keys[key].frame, f32::from(keys[key].value), 0.0],
            Some(Curve::Hermite(keys)) => [keys[key].frame, keys[key].value, keys[key].slope],
            None => panic!("no track {track}"),
        }
    }

    /// Makes an edit of the animation's track.
    pub fn edit(&mut self, animation: u16, track: u16, key: u16, request: Request) {
        self.player.active = Some(usize::from(animation));
        let track = self.tracks[usize::from(track)].place.clone();
        let key_idx = usize::from(key);
        match request {
            Request::Key { frame, value } => self.player.apply_key_edit(&PendingKeyEdit {
                track,
                key_idx,
                frame,
                value,
            }),
            Request::Slope(slope) => self.player.apply_slope_edit(&PendingSlopeEdit {
                track,
                key_idx,
                slope,
            }),
        }
    }

    /// Document 01: "play of none does nothing", as in the text.
    pub fn play(&mut self, view: View, animation: u16) -> View {
        self.show(view);
        let number = (animation != NONE).then_some(usize::from(animation));
        self.player.play(number, &self.tree, &mut HashSet::new());
        self.shown(view)
    }

    /// Document 01: "pose from A up clears the selection and sets frame to +0,
    /// as does pose of none". The text has a frame for each animation and none
    /// without one; the player here has one alone.
    pub fn pose(&mut self, view: View, animation: u16, frame: f32) -> View {
        self.show(view);
        let number = (animation != NONE).then_some(usize::from(animation));
        self.player.pose(number, frame);
        self.shown(View {
            playing: false,
            frame: 0.0,
            ..view
        })
    }

    /// Document 01: idle is "nothing selected or not playing". The name is the one
    /// that the text's tick returned.
    pub fn tick(&mut self, view: View, dt: f32, fps: f32) -> (View, Tick) {
        self.show(view);
        let played = self.player.is_playing();
        let next = self.player.tick(dt, fps);
        let answer = match next {
            Some(text) => Tick::Next(name(&text)),
            None if self.player.is_playing() => Tick::Running,
            None if played => Tick::Ended,
            None => Tick::Idle,
        };
        (self.shown(view), answer)
    }

    /// The name that the text would play after an animation, as the field of 24
    /// bytes: all zero where there is none. Nothing from A up.
    pub fn next_name(&self, animation: u16) -> Option<Name> {
        let instance = self.player.anims.get(usize::from(animation))?;
        Some(name(instance.next_anim.as_deref().unwrap_or_default()))
    }

    pub fn evaluate(&self, view: View, labels: &HashMap<String, PaneId>) -> AnimationState {
        let Some((number, frame)) = view.active() else {
            return AnimationState::default();
        };
        let info = &self.player.anims[number].bflan.anim_info;
        AnimationState::evaluate(info, frame, labels)
    }

    /// Sets the text's player to a view.
    fn show(&mut self, view: View) {
        self.player.anims.iter_mut().for_each(|a| a.playing = false);
        self.player.preview_enabled = view.preview;
        self.player.active = (view.selection != NONE).then_some(usize::from(view.selection));
        if let Some(number) = self.player.active {
            self.player.anims[number].frame = view.frame;
            self.player.anims[number].playing = view.playing;
        }
    }

    /// The view of the text's player; `otherwise` has the frame and the flag
    /// where no animation is selected.
    fn shown(&self, otherwise: View) -> View {
        let preview = self.player.preview_enabled;
        match self.player.active {
            Some(number) => View {
                selection: number as u16,
                playing: self.player.anims[number].playing,
                preview,
                frame: self.player.anims[number].frame,
            },
            None => View {
                selection: NONE,
                preview,
                ..otherwise
            },
        }
    }
}

impl Track {
    fn new(sheet: &Sheet, number: usize, target: &Target) -> Self {
        let animation_of = |content: usize| sheet.contents[content].animation;
        let content = usize::from(target.content);
        let animation = animation_of(content);
        let earlier = sheet.targets[..number].iter();
        Self {
            animation: usize::from(animation),
            curve: target.curve,
            keys: target.keys(),
            place: TimelineTrack {
                label: String::new(),
                content_idx: (0..content)
                    .filter(|&c| animation_of(c) == animation)
                    .count(),
                info_idx: earlier.filter(|t| t.content == target.content).count(),
                target_idx: 0,
            },
        }
    }
}

pub fn bflan(sheet: &Sheet, number: usize) -> Bflan {
    let row = &sheet.animations[number];
    let user_data = (row.next_present == 1).then(|| UserDataArray {
        user_data: vec![UserData {
            content: UserDataContent::String(text_of(&row.next).to_string()),
            o_name: NEXT.to_string(),
        }],
    });
    Bflan {
        anim_tag: AnimTag {
            user_data,
            ..AnimTag::default()
        },
        anim_info: form::animation(sheet, number),
    }
}
