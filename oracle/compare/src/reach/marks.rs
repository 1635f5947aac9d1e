//! The call itself: what it marks, and what it declines.

use super::menu::Menu;
use cases::calls::FILL_BYTE;
use cases::format::load::Arrays;
use cases::random::Random;
use cases::reach;
use cases::readings::addressed;
use dovebolt::raw;

/// A mark for each channel and for each pane.
#[derive(Clone, Debug, PartialEq)]
pub struct Marks {
    pub channels: Vec<u8>,
    pub panes: Vec<u8>,
}

impl Marks {
    fn filled(menu: &Menu) -> Self {
        Self {
            channels: vec![FILL_BYTE; addressed::channels(&menu.book)],
            panes: vec![FILL_BYTE; menu.book.panes.len()],
        }
    }

    /// By the plain definition.
    pub fn plain(menu: &Menu, before: &Arrays, after: &Arrays, animation: usize) -> Self {
        let channels = reach::channels(&menu.sheet, &menu.book, before, after, animation);
        Self {
            panes: reach::panes(&menu.book, &channels),
            channels,
        }
    }

    /// By the proved code, with the refusal's number.
    pub fn ours(menu: &Menu, before: &Arrays, after: &Arrays, animation: usize) -> (u8, Self) {
        let mut marks = Self::filled(menu);
        let refusal = call(menu.bytes(), before, after, animation as u16, &mut marks);
        (refusal, marks)
    }
}

fn call(
    (sheet, book): (&[u8], &[u8]),
    [frames, values, slopes]: &Arrays,
    [new_frames, new_values, new_slopes]: &Arrays,
    animation: u16,
    Marks { channels, panes }: &mut Marks,
) -> u8 {
    unsafe {
        raw::menu_reach(
            sheet.as_ptr(),
            sheet.len(),
            book.as_ptr(),
            book.len(),
            frames.as_ptr(),
            frames.len(),
            values.as_ptr(),
            values.len(),
            slopes.as_ptr(),
            slopes.len(),
            new_frames.as_ptr(),
            new_frames.len(),
            new_values.as_ptr(),
            new_values.len(),
            new_slopes.as_ptr(),
            new_slopes.len(),
            animation,
            channels.as_mut_ptr(),
            channels.len(),
            panes.as_mut_ptr(),
            panes.len(),
        )
    }
}

/// What a call takes.
struct Taken {
    sheet: Vec<u8>,
    book: Vec<u8>,
    sets: [Arrays; 2],
    animation: u16,
    marks: Marks,
}

/// Breaks one or two of the things that the call takes: the number that must decline it,
/// what it answers, and whether it left both outputs.
pub fn declined(
    random: &mut Random,
    menu: &Menu,
    before: &Arrays,
    after: &Arrays,
) -> (u8, u8, bool) {
    let mut taken = Taken {
        sheet: menu.sheet_bytes.clone(),
        book: menu.book_bytes.clone(),
        sets: [before.clone(), after.clone()],
        animation: random.below(menu.sheet.animations.len()) as u16,
        marks: Marks::filled(menu),
    };
    let broken = (0..1 + random.below(2)).map(|_| taken.spoil(random, menu));
    let due = broken.min().unwrap_or_default();
    let lent = taken.marks.clone();
    let Taken {
        sheet,
        book,
        sets: [before, after],
        animation,
        mut marks,
    } = taken;
    let refusal = call((&sheet, &book), &before, &after, animation, &mut marks);
    (due, refusal, marks == lent)
}

impl Taken {
    /// Breaks something: the number that declines it.
    fn spoil(&mut self, random: &mut Random, menu: &Menu) -> u8 {
        let keys = menu.sheet.frames.len();
        let set = &mut self.sets[random.below(2)];
        let array = &mut set[random.below(3)];
        match random.below(6) {
            0 => {
                self.sheet.pop();
                1
            }
            1 => {
                self.book.pop();
                2
            }
            2 if !array.is_empty() => {
                let place = random.below(array.len());
                array[place] = random.pick(&[f32::NAN, f32::INFINITY]);
                4
            }
            3 => {
                let above = menu.sheet.animations.len() as u16;
                self.animation = random.pick(&[above, above + 1, 65_535]);
                6
            }
            4 => {
                let (channels, panes) = (addressed::channels(&menu.book), menu.book.panes.len());
                let output = random.below(2);
                let length = other(random, [channels, panes][output]);
                let Marks { channels, panes } = &mut self.marks;
                [channels, panes][output].resize(length, FILL_BYTE);
                13
            }
            _ => {
                array.resize(other(random, keys), 0.0);
                3
            }
        }
    }
}

/// One less, or one more.
fn other(random: &mut Random, length: usize) -> usize {
    match length.checked_sub(1) {
        Some(less) if random.once_in(2) => less,
        _ => length + 1,
    }
}
