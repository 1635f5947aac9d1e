//! Menus of several sizes, in the product's form and in the published one.

use cases::calls::reference::bflan;
use cases::format::book::Book;
use cases::format::sheet::{Sheet, Target};
use cases::random::Random;
use cases::readings::Case;
use cases::readings::published_form as form;
use cases::sheets::{books, good};
use dovebolt::{Keys, Player};
use published::anim_state::AnimPlayer;
use published::bflan::anim_info::PaneAnimInfo;
use published::pane_tree::{PaneId, PaneNode, PaneTree};
use published::ui::timeline::TimelineTrack;
use std::collections::{HashMap, HashSet};

/// The frame at which everything is read.
pub const FRAME: f32 = 7.5;

pub struct Menu {
    pub case: Case,
    pub sheet: Vec<u8>,
    pub book: Vec<u8>,
    pub player: Player,
    pub keys: Keys,
    pub info: PaneAnimInfo,
    pub labels: HashMap<String, PaneId>,
    pub tree: PaneTree,
    pub published: AnimPlayer,
}

pub const SMALL: (good::Size, books::Size) = (
    good::Size {
        animations: 1,
        contents: 4,
        targets: 8,
        keys: 24,
        textures: 2,
    },
    books::Size {
        panes: 4,
        materials: 2,
    },
);

pub const TYPICAL: (good::Size, books::Size) = (
    good::Size {
        animations: 4,
        contents: 24,
        targets: 80,
        keys: 400,
        textures: 12,
    },
    books::Size {
        panes: 24,
        materials: 10,
    },
);

pub const FULL: (good::Size, books::Size) = (good::FULL, books::FULL);

/// Each with its name and what [`Menu::new`] makes it of.
pub const NAMED: [(&str, (good::Size, books::Size), Option<usize>); 3] = [
    ("small", SMALL, Some(1)),
    ("typical", TYPICAL, None),
    ("full", FULL, Some(1)),
];

impl Menu {
    /// A generated menu whose animation 0 plays and loops. The contents are
    /// divided among the first `parts` animations, as many to each; with one part
    /// a reading takes all targets. `None` leaves them as they were generated.
    pub fn new((sheet, book): (good::Size, books::Size), parts: Option<usize>) -> Self {
        let mut random = Random::new(1);
        let book = books::book(&mut random, book);
        let mut sheet = good::sheet(&mut random, sheet, &book);
        sheet.animations[0].frame_count = 60;
        sheet.animations[0].looping = 1;
        if let Some(parts) = parts {
            let count = sheet.contents.len();
            let contents = sheet.contents.iter_mut().enumerate();
            contents.for_each(|(i, content)| content.animation = (i * parts / count) as u8);
        }
        Self::of(sheet, book)
    }

    fn of(sheet: Sheet, book: Book) -> Self {
        let (sheet_bytes, book_bytes) = (sheet.write(), book.write());
        let (mut player, keys) = Player::load(&sheet_bytes).expect("a good sheet");
        player.play(&sheet_bytes, Some(0)).expect("animation 0");
        let mut tree = form::tree(&book);
        without_listeners(&mut tree.roots);
        let mut published = AnimPlayer::new();
        published.load(bflan(&sheet, 0), None);
        published.play(Some(0), &tree, &mut HashSet::new());
        Self {
            info: form::animation(&sheet, 0),
            labels: form::labels(&book),
            tree,
            published,
            sheet: sheet_bytes,
            book: book_bytes,
            player,
            keys,
            case: Case {
                sheet,
                book,
                active: Some((0, FRAME)),
            },
        }
    }

    /// The player posed at the frame that everything is read at.
    pub fn posed(&self) -> Player {
        let mut player = self.player.clone();
        player
            .pose(&self.sheet, Some(0), FRAME)
            .expect("animation 0");
        player
    }

    /// The targets of animation 0 with their numbers.
    pub fn targets(&self) -> impl Iterator<Item = (u16, &Target)> {
        let sheet = &self.case.sheet;
        (0..)
            .zip(&sheet.targets)
            .filter(|(_, target)| sheet.contents[usize::from(target.content)].animation == 0)
    }

    /// A track of animation 0 that is its content's first and has a key, where
    /// the published form has it, and its last key, which no edit takes past
    /// another.
    pub fn edited_key(&self) -> (u16, TimelineTrack, u16) {
        let mut before = None;
        for (number, target) in self.targets() {
            let first = before.replace(target.content) != Some(target.content);
            if first && !target.keys().is_empty() {
                let place = TimelineTrack {
                    label: String::new(),
                    content_idx: usize::from(target.content),
                    info_idx: 0,
                    target_idx: 0,
                };
                return (number, place, target.keys().len() as u16 - 1);
            }
        }
        panic!("no track of animation 0 has keys")
    }
}

/// Where an edited key is put: at one of two values in turn, so that no edit is
/// unchanged. Each row has values of its own.
pub fn places(values: [f32; 2]) -> impl FnMut() -> (f32, f32) {
    let mut values = values.into_iter().cycle();
    move || (0.25, values.next().expect("it goes round"))
}

/// The comparison hangs a node below each pane to hear what it hands on; the
/// published tree has none.
fn without_listeners(nodes: &mut Vec<PaneNode>) {
    nodes.retain(|node| node.pane_idx != form::LISTENER);
    nodes
        .iter_mut()
        .for_each(|node| without_listeners(&mut node.children));
}

#[cfg(test)]
mod tests {
    use super::*;

    /// How many contents each animation has.
    fn contents(menu: &Menu) -> Vec<usize> {
        let Sheet {
            animations,
            contents,
            ..
        } = &menu.case.sheet;
        let of = |number: usize| {
            contents
                .iter()
                .filter(move |c| c.animation as usize == number)
        };
        (0..animations.len())
            .map(|number| of(number).count())
            .collect()
    }

    #[test]
    fn contents_are_divided_among_the_first_animations() {
        let menu = |parts| Menu::new(FULL, Some(parts));
        assert_eq!(contents(&menu(1)), [64, 0, 0, 0, 0, 0, 0, 0]);
        assert_eq!(contents(&menu(4)), [16, 16, 16, 16, 0, 0, 0, 0]);
        assert_eq!(contents(&menu(8)), [8; 8]);
        assert_eq!(menu(1).targets().count(), 256);
        assert!((16..64).contains(&menu(8).targets().count()));
    }
}
