//! Every field of every struct that crosses the C ABI, as the library fills it. In each state the fields of one type hold
//! different values, so that two that were swapped would be seen.

use std::collections::HashSet;
use std::fs;
use std::mem::{align_of, offset_of, size_of};
use std::path::Path;

use dovebolt::raw::{self, Journal};
use dovebolt::{
    Corners, Drag, Key, Keys, MaterialChannel, PaneChannel, Player, Reading, Refusal, Srt, Tick,
    Transform, Vector2f, Vector3f, corners, example, rotate_point, translate,
};

/// The Hermite track of animation 1, and its key of frame 60 and value 51.
const TRACK: u16 = 4;
const KEY: u16 = 1;
const PLACE: usize = 8;

fn loaded() -> (Vec<u8>, Player, Keys) {
    let sheet = example::sheet();
    let (player, keys) = Player::load(&sheet).unwrap();
    (sheet, player, keys)
}

#[test]
fn sizes() {
    assert_eq!(
        (
            size_of::<raw::SheetCounts>(),
            align_of::<raw::SheetCounts>()
        ),
        (12, 2)
    );
    assert_eq!(
        (size_of::<raw::BookCounts>(), align_of::<raw::BookCounts>()),
        (8, 2)
    );
    assert_eq!((size_of::<Journal>(), align_of::<Journal>()), (3584, 4));
    assert_eq!((size_of::<raw::Drag>(), align_of::<raw::Drag>()), (20, 4));
    assert_eq!(
        (size_of::<raw::Player>(), align_of::<raw::Player>()),
        (3664, 8)
    );
    assert_eq!(
        (size_of::<raw::Played>(), align_of::<raw::Played>()),
        (3672, 8)
    );
    assert_eq!(
        (size_of::<raw::Edited>(), align_of::<raw::Edited>()),
        (3672, 8)
    );
    assert_eq!(
        (size_of::<raw::Ticked>(), align_of::<raw::Ticked>()),
        (3672, 8)
    );
    assert_eq!(
        (size_of::<raw::ReadOne>(), align_of::<raw::ReadOne>()),
        (8, 4)
    );
    assert_eq!(
        (
            size_of::<raw::ResolvedPane>(),
            align_of::<raw::ResolvedPane>()
        ),
        (48, 4)
    );
    assert_eq!(
        (
            size_of::<raw::ResolvedSrt>(),
            align_of::<raw::ResolvedSrt>()
        ),
        (24, 4)
    );
    assert_eq!(
        (size_of::<raw::Placed>(), align_of::<raw::Placed>()),
        (36, 4)
    );
    assert_eq!(
        (size_of::<raw::Turned>(), align_of::<raw::Turned>()),
        (12, 4)
    );
}

/// A player may be stored as it is, with its fields where docs/FORMAT.md says.
#[test]
fn offsets() {
    macro_rules! offsets {
        ($of:ty: $($field:ident),*) => { [$(offset_of!($of, $field)),*] };
    }
    assert_eq!(
        offsets!(raw::Player: selection, playing, preview, frame, reach, redo, accepted, undone, redone, standing,
            journal, drag),
        [0, 2, 3, 4, 8, 16, 24, 32, 40, 48, 56, 3640]
    );
    assert_eq!(
        offsets!(Journal: track, key, before_frame, before_value, before_slope, after_frame, after_value, after_slope),
        [0, 256, 512, 1024, 1536, 2048, 2560, 3072]
    );
    assert_eq!(
        offsets!(raw::Drag: open, moved, track, key, start_frame, start_value, start_slope),
        [0, 1, 2, 4, 8, 12, 16]
    );
    assert_eq!(
        offsets!(raw::SheetCounts: refusal, animations, contents, tracks, keys, textures),
        [0, 2, 4, 6, 8, 10]
    );
    assert_eq!(
        offsets!(raw::BookCounts: refusal, panes, materials, channels),
        [0, 2, 4, 6]
    );
    assert_eq!(offsets!(raw::Played: refusal, player), [0, 8]);
    assert_eq!(offsets!(raw::Edited: refusal, unchanged, player), [0, 1, 8]);
    assert_eq!(offsets!(raw::Ticked: refusal, answer, player), [0, 1, 8]);
}

fn sample(name: &str) -> Vec<u8> {
    let folder = Path::new(env!("CARGO_MANIFEST_DIR")).join("../samples");
    fs::read(folder.join(name)).unwrap()
}

/// The first `N` numbers of a file, which are its counts.
fn head<const N: usize>(file: &[u8]) -> [u16; N] {
    std::array::from_fn(|n| u16::from_le_bytes([file[2 * n], file[2 * n + 1]]))
}

/// Of a sheet whose five counts differ; one byte less, and nothing is counted.
#[test]
fn sheet_counts() {
    let sheet = sample("title.sheet");
    let held @ [animations, contents, tracks, keys, textures] = head(&sheet);
    assert_eq!(held.iter().collect::<HashSet<_>>().len(), 5);
    // SAFETY: the pointer has as many elements as the length after it says.
    let counted = |len| unsafe { raw::menu_sheet_counts(sheet.as_ptr(), len) };
    let expected = raw::SheetCounts {
        refusal: 0,
        animations,
        contents,
        tracks,
        keys,
        textures,
    };
    assert_eq!(counted(sheet.len()), expected);
    let declined = raw::SheetCounts {
        refusal: 1,
        ..Default::default()
    };
    assert_eq!(counted(sheet.len() - 1), declined);
    assert_eq!(counted(0), declined);
}

#[test]
fn book_counts() {
    let book = sample("title.book");
    let [panes, materials] = head(&book);
    assert_ne!(panes, materials);
    // SAFETY: as above.
    let counted = |len| unsafe { raw::menu_book_counts(book.as_ptr(), len) };
    let expected = raw::BookCounts {
        refusal: 0,
        panes,
        materials,
        channels: 28 * panes + 30 * materials,
    };
    assert_eq!(counted(book.len()), expected);
    let declined = raw::BookCounts {
        refusal: 2,
        ..Default::default()
    };
    assert_eq!(counted(book.len() - 1), declined);
    assert_eq!(counted(0), declined);
}

#[test]
fn what_is_shown() {
    let (sheet, mut player, _) = loaded();
    let state = |p: &Player| {
        (
            p.as_raw().selection,
            p.as_raw().playing,
            p.as_raw().preview,
            p.as_raw().frame,
        )
    };
    assert_eq!(state(&player), (65535, false, false, 0.0));
    player.play(&sheet, Some(1)).unwrap();
    assert_eq!(state(&player), (1, true, true, 0.0));
    player.pose(&sheet, Some(1), 4.5).unwrap();
    assert_eq!(state(&player), (1, false, true, 4.5));
}

/// 130 edits, 5 undone, 2 of these made again.
#[test]
fn counts() {
    let (sheet, mut player, mut keys) = loaded();
    player.pose(&sheet, Some(1), 4.5).unwrap();
    for n in 0..130 {
        player
            .key_edit(&sheet, &mut keys, TRACK, KEY, 50.0, n as f32)
            .unwrap();
    }
    for _ in 0..5 {
        player.undo(&sheet, &mut keys).unwrap();
    }
    for _ in 0..2 {
        player.redo(&sheet, &mut keys).unwrap();
    }
    let p = player.as_raw();
    assert_eq!((p.reach, p.redo, p.standing), (125, 3, 127));
    assert_eq!((p.accepted, p.undone, p.redone), (130, 5, 2));
    // Edit number 127 is in the last row, 128 and 129 again in the first two.
    assert_eq!(
        (p.journal.before_value[127], p.journal.after_value[127]),
        (126.0, 127.0)
    );
    assert_eq!(
        (p.journal.before_value[0], p.journal.after_value[0]),
        (127.0, 128.0)
    );
    assert_eq!(
        (p.journal.before_value[1], p.journal.after_value[1]),
        (128.0, 129.0)
    );
    assert_eq!(
        (p.journal.before_value[2], p.journal.after_value[2]),
        (1.0, 2.0)
    );
    assert_eq!((p.journal.track[127], p.journal.key[127]), (TRACK, KEY));
}

/// A slope edit in row 0 and a key edit in row 1; every other row is as it was.
#[test]
fn journal() {
    let (sheet, mut player, mut keys) = loaded();
    player.pose(&sheet, Some(1), 0.0).unwrap();
    player
        .slope_edit(&sheet, &mut keys, TRACK, KEY, 0.5)
        .unwrap();
    player
        .key_edit(&sheet, &mut keys, TRACK, KEY, 58.0, 40.0)
        .unwrap();
    assert_eq!(
        (keys.frames[PLACE], keys.values[PLACE], keys.slopes[PLACE]),
        (58.0, 40.0, 0.5)
    );

    fn rows<T: Copy + Default>(first: [T; 2]) -> [T; 128] {
        let mut all = [T::default(); 128];
        all[..2].copy_from_slice(&first);
        all
    }
    let expected = Journal {
        track: rows([TRACK; 2]),
        key: rows([KEY; 2]),
        before_frame: rows([60.0, 60.0]),
        before_value: rows([51.0, 51.0]),
        before_slope: rows([0.0, 0.5]),
        after_frame: rows([60.0, 58.0]),
        after_value: rows([51.0, 40.0]),
        after_slope: rows([0.5, 0.5]),
    };
    assert_eq!(player.as_raw().journal, expected);
}

/// Declined, unchanged and made.
#[test]
fn edited() {
    let (sheet, mut player, mut keys) = loaded();
    player.pose(&sheet, Some(1), 0.0).unwrap();
    let mut answer = |slope| {
        // SAFETY: each pointer is followed by its array's length.
        let answer = unsafe {
            raw::menu_slope_edit(
                *player.as_raw(),
                sheet.as_ptr(),
                sheet.len(),
                keys.frames.as_mut_ptr(),
                keys.frames.len(),
                keys.values.as_mut_ptr(),
                keys.values.len(),
                keys.slopes.as_mut_ptr(),
                keys.slopes.len(),
                TRACK,
                KEY,
                slope,
            )
        };
        (answer.refusal, answer.unchanged, answer.player.accepted)
    };
    assert_eq!(answer(f32::NAN), (8, false, 0));
    assert_eq!(answer(0.0), (0, true, 0));
    assert_eq!(answer(0.5), (0, false, 1));
}

/// Fresh, opened, moved and dropped. The key has a slope of its own, so that the three starting numbers differ.
#[test]
fn drag() {
    let (sheet, mut player, mut keys) = loaded();
    let closed = raw::Drag::default();
    assert_eq!(player.as_raw().drag, closed);
    assert_eq!(player.dragging(), None);

    player.pose(&sheet, Some(1), 0.0).unwrap();
    player
        .slope_edit(&sheet, &mut keys, TRACK, KEY, 0.5)
        .unwrap();
    player.open_drag(&sheet, &keys, TRACK, KEY).unwrap();
    let opened = raw::Drag {
        open: true,
        moved: false,
        track: TRACK,
        key: KEY,
        start_frame: 60.0,
        start_value: 51.0,
        start_slope: 0.5,
    };
    assert_eq!(player.as_raw().drag, opened);
    let start = Key {
        frame: 60.0,
        value: 51.0,
        slope: 0.5,
    };
    let shown = |moved| {
        Some(Drag {
            track: TRACK,
            key: KEY,
            start,
            moved,
        })
    };
    assert_eq!(player.dragging(), shown(false));

    player.drag(&sheet, &mut keys, 58.0, 40.0).unwrap();
    let moved = raw::Drag {
        moved: true,
        ..opened
    };
    assert_eq!(player.as_raw().drag, moved);
    assert_eq!(player.dragging(), shown(true));
    assert_eq!(
        (keys.frames[PLACE], keys.values[PLACE], keys.slopes[PLACE]),
        (58.0, 40.0, 0.5)
    );

    player.drop_drag(&sheet, &keys).unwrap();
    assert_eq!(player.as_raw().drag, closed);
    assert_eq!(player.dragging(), None);
}

#[test]
fn ticks() {
    let (sheet, mut player, _) = loaded();
    assert_eq!(player.tick(&sheet, 0.5, 8.0), Ok(Tick::Idle));
    assert_eq!(player.next_name(&sheet), Err(Refusal::Animation));
    player.play(&sheet, Some(0)).unwrap();
    assert_eq!(player.tick(&sheet, 0.5, 8.0), Ok(Tick::Running));
    assert_eq!(player.tick(&sheet, f32::NAN, 8.0), Err(Refusal::NotFinite));
    assert_eq!(player.frame(), 4.0);
    assert_eq!(player.tick(&sheet, 0.5, 8.0), Ok(Tick::Next));
    assert_eq!((player.frame(), player.playing()), (8.0, false));
    assert_eq!(player.next_name(&sheet).unwrap().bytes(), b"Idle");

    // Without a next name: the byte that says whether there is one, and the name.
    let mut alone = sheet.clone();
    alone[15..15 + 25].fill(0);
    player.play(&alone, Some(0)).unwrap();
    assert_eq!(player.tick(&alone, 2.0, 8.0), Ok(Tick::Ended));
    assert!(player.next_name(&alone).unwrap().is_empty());

    // Names that fill the field, and that are empty although there is one.
    let mut named = sheet.clone();
    for bytes in [*b"the next one of 24 bytes", [0; 24]] {
        named[16..16 + 24].copy_from_slice(&bytes);
        player.play(&named, Some(0)).unwrap();
        assert_eq!(player.tick(&named, 2.0, 8.0), Ok(Tick::Next));
        assert_eq!(player.next_name(&named).unwrap().0, bytes);
    }
}

#[test]
fn readings() {
    let (sheet, mut player, keys) = loaded();
    let book = example::book();
    player.pose(&sheet, Some(0), 4.0).unwrap();
    let pane = |channel| player.read_pane(&sheet, &book, &keys, 1, channel);
    let material = |channel| player.read_material(&sheet, &book, &keys, 0, channel);
    assert_eq!(pane(PaneChannel::TranslateX), Ok(Reading::Number(8.0)));
    assert_eq!(pane(PaneChannel::TranslateY), Ok(Reading::Nothing));
    assert_eq!(pane(PaneChannel::Visible), Ok(Reading::Shown(true)));
    assert_eq!(material(MaterialChannel::Texture0), Ok(Reading::Row(1)));
    assert_eq!(material(MaterialChannel::BlackRed), Ok(Reading::Level(200)));
    let no_pane = player.read_pane(&sheet, &book, &keys, 2, PaneChannel::Alpha);
    assert_eq!(no_pane, Err(Refusal::NoSuch));
    let no_material = player.read_material(&sheet, &book, &keys, 1, MaterialChannel::Texture0);
    assert_eq!(no_material, Err(Refusal::NoSuch));
    player.pose(&sheet, Some(0), 3.0).unwrap();
    assert_eq!(
        player.read_pane(&sheet, &book, &keys, 1, PaneChannel::Visible),
        Ok(Reading::Shown(false))
    );
}

/// The whole reading holds what the single ones answer.
#[test]
fn whole_reading() {
    let (sheet, mut player, keys) = loaded();
    let book = example::book();
    player.pose(&sheet, Some(0), 4.0).unwrap();
    let all = player.read_all(&sheet, &book, &keys).unwrap();
    assert_eq!(all.marks.len(), 86);
    let marked: Vec<(usize, f32)> = (0..86).filter_map(|c| all.get(c).map(|x| (c, x))).collect();
    assert_eq!(
        marked,
        [
            (PaneChannel::TranslateX.place(1), 8.0),
            (PaneChannel::Visible.place(1), 1.0),
            (MaterialChannel::Texture0.place(&book, 0), 1.0),
            (MaterialChannel::BlackRed.place(&book, 0), 200.0)
        ]
    );
}

fn v2(x: f32, y: f32) -> Vector2f {
    Vector2f { x, y }
}

fn v3(x: f32, y: f32, z: f32) -> Vector3f {
    Vector3f { x, y, z }
}

#[test]
fn resolving() {
    let (sheet, mut player, keys) = loaded();
    let book = example::book();
    let logo = player.resolve_pane(&sheet, &book, &keys, 1).unwrap();
    assert_eq!((logo.visible, logo.alpha), (true, 0.2));
    let expected = Transform {
        translation: v3(1.0, 2.0, 3.0),
        rotation: v3(4.0, 5.0, 6.0),
        scale: v2(7.0, 8.0),
        size: v2(9.0, 10.0),
    };
    assert_eq!(logo.transform, expected);
    assert_eq!(
        player.resolve_pane(&sheet, &book, &keys, 2),
        Err(Refusal::NoSuch)
    );

    let layer = player.resolve_srt(&sheet, &book, &keys, 0, 2);
    let expected = Srt {
        translate: v2(11.0, 12.0),
        rotate: 13.0,
        scale: v2(14.0, 15.0),
    };
    assert_eq!(layer, Ok(expected));
    assert_eq!(
        player.resolve_srt(&sheet, &book, &keys, 0, 3),
        Err(Refusal::NoSuch)
    );

    player.pose(&sheet, Some(0), 0.0).unwrap();
    assert!(
        !player
            .resolve_pane(&sheet, &book, &keys, 1)
            .unwrap()
            .visible
    );
}

#[test]
fn cascade() {
    let (sheet, mut player, keys) = loaded();
    let mut book = example::book();
    // "Root" gets alpha 102 of 255, and a third pane is not needed: "Logo" hands on its own alpha too.
    book[4 + 27] = 102;
    let rows = player.cascade(&sheet, &book, &keys).unwrap();
    assert_eq!(
        (rows[0].visible, rows[0].alpha, rows[0].influence),
        (true, 0.4, 0.4)
    );
    assert_eq!((rows[1].visible, rows[1].alpha), (true, 0.4 * 0.2));
    // "Logo" no longer influences alpha: it hands on its parent's.
    book[4 + 72 + 26] = 1;
    let rows = player.cascade(&sheet, &book, &keys).unwrap();
    assert_eq!((rows[1].alpha, rows[1].influence), (0.4 * 0.2, 0.4));
    player.pose(&sheet, Some(0), 0.0).unwrap();
    let rows = player.cascade(&sheet, &book, &keys).unwrap();
    assert_eq!((rows[0].visible, rows[1].visible), (true, false));
}

#[test]
fn shapes() {
    let still = Vector3f::default();
    let placed = corners(v2(10.0, 20.0), v2(4.0, 2.0), 0, 0, still).unwrap();
    let expected = Corners {
        top_left: v2(8.0, 19.0),
        top_right: v2(12.0, 19.0),
        bottom_left: v2(8.0, 21.0),
        bottom_right: v2(12.0, 21.0),
    };
    assert_eq!(placed, expected);
    // The two origins are told apart.
    assert_eq!(
        corners(v2(10.0, 20.0), v2(4.0, 2.0), 1, 2, still)
            .unwrap()
            .top_left,
        v2(10.0, 18.0)
    );
    assert_eq!(
        corners(v2(10.0, 20.0), v2(4.0, 2.0), 3, 0, still),
        Err(Refusal::NoSuch)
    );

    let moved = translate(expected, v2(100.0, 200.0)).unwrap();
    assert_eq!(
        (moved.top_left, moved.bottom_right),
        (v2(108.0, 219.0), v2(112.0, 221.0))
    );
    assert_eq!(
        translate(expected, v2(f32::INFINITY, 0.0)),
        Err(Refusal::NotFinite)
    );

    // A turn about x leaves x, about y leaves y, about z changes both.
    let turned = |rotation| rotate_point(v2(1.0, 2.0), v2(10.0, 20.0), rotation).unwrap();
    let (x, y, z) = (
        turned(v3(60.0, 0.0, 0.0)),
        turned(v3(0.0, 60.0, 0.0)),
        turned(v3(0.0, 0.0, 60.0)),
    );
    assert!(x.x == 11.0 && (x.y - 21.0).abs() < 1e-4);
    assert!(y.y == 22.0 && (y.x - 10.5).abs() < 1e-4);
    assert!((z.x - 12.232_05).abs() < 1e-4 && (z.y - 20.133_97).abs() < 1e-4);
    assert_eq!(
        rotate_point(v2(1.0, 2.0), v2(0.0, 0.0), v3(0.0, 0.0, 3601.0)),
        Err(Refusal::Angle)
    );
}

#[test]
fn uvs() {
    // Layers with numbers of their own, and none transformed.
    let layers: Vec<f32> = (0..24).map(|n| n as f32).collect();
    let block = dovebolt::uvs(&layers, &[]).unwrap();
    for (v, corner) in block.iter().enumerate() {
        for (l, pair) in corner.iter().enumerate() {
            let at = (l * 8 + v * 2) as f32;
            assert_eq!(*pair, [at, at + 1.0]);
        }
    }
    let mut flat = [0.0; 24];
    dovebolt::uvs_into(&layers, &[], &mut flat).unwrap();
    assert_eq!(block.as_flattened().as_flattened(), flat);
}
