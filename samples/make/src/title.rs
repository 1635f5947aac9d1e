//! A title screen: a logo that drops in, two buttons, a cursor and a line of text that blinks.
use dovebolt::{Address, BookBuilder, BuildError, ContentKind, Horizontal, SheetBuilder, Srt, Vector2f, Vertical};
use dovebolt::{MaterialChannel::*, PaneChannel::*};

pub fn sheet() -> Result<Vec<u8>, BuildError> {
    let mut sheet = SheetBuilder::new();
    appear(&mut sheet);
    idle(&mut sheet);
    decide(&mut sheet);
    for name in ["cursor_0", "cursor_1", "cursor_2", "sky_dawn", "sky_noon"] {
        sheet.texture(name);
    }
    sheet.build()
}

/// The logo drops in while the menu fades up; then `Idle` follows.
fn appear(sheet: &mut SheetBuilder) {
    let appear = sheet.animation(16).next("Idle");
    appear
        .pane("Logo")
        .hermite(TranslateY, &[(0.0, 360.0, 0.0), (12.0, 96.0, 0.0), (15.0, 120.0, 0.0)])
        .hermite(ScaleX, &[(0.0, 0.5, 0.0), (8.0, 1.0, 0.0)])
        .hermite(ScaleY, &[(0.0, 0.5, 0.0), (8.0, 1.0, 0.0)]);
    appear.pane_ext("LogoShine").step(Visible, &[(0.0, 0.0), (10.0, 1.0)]);
    appear.pane("Menu").hermite(Alpha, &[(0.0, 0.0, 0.0), (15.0, 255.0, 17.0)]);
    appear.pane("PressAnyKey").constant(Visible, &[0.0]);
    appear
        .material("M_Logo")
        .hermite(Layer1TranslateU, &[(8.0, -1.0, 0.125), (15.0, 1.0, 0.0)])
        .hermite(AlphaReference, &[(0.0, 0.0, 0.0), (8.0, 0.5, 0.0)])
        .hermite(BlackAlpha, &[(0.0, 255.0, 0.0), (8.0, 0.0, 0.0)])
        .by_address()
        // Color2Blue, another raw number of white_blue.
        .constant(Address::new(b"FLMC", 18, 0), &[192.0]);
    appear
        .material("M_Sky")
        .step(Texture0, &[(0.0, 3.0), (12.0, 4.0)])
        .hermite(IndirectRotate, &[(0.0, 0.0, 3.0), (15.0, 45.0, 3.0)]);
}

/// The cursor sways and changes its picture, the sky goes by, the text blinks, for as long as nothing is pressed.
fn idle(sheet: &mut SheetBuilder) {
    let idle = sheet.animation(48).looping();
    idle.pane("Cursor")
        .hermite(TranslateX, &[(0.0, -180.0, 0.0), (24.0, -172.0, 0.0), (48.0, -180.0, 0.0)])
        .hermite(RotateZ, &[(0.0, 0.0, 0.5), (24.0, 12.0, 0.5), (48.0, 0.0, -1.5)])
        .hermite(LeftTopRed, &[(0.0, 255.0, 0.0), (24.0, 128.0, 0.0), (48.0, 255.0, 0.0)])
        .constant(RightBottomAlpha, &[204.0]);
    idle.pane("PressAnyKey").step(Visible, &[(0.0, 1.0), (32.0, 0.0)]);
    idle.material("M_Sky")
        .hermite(Layer0TranslateU, &[(0.0, 0.0, 0.03125), (48.0, 1.5, 0.03125)])
        .hermite(Layer1TranslateV, &[(0.0, 0.0, 0.0), (24.0, 0.25, 0.0), (48.0, 0.0, 0.0)])
        .by_address()
        // A layer that the player skips.
        .constant(Address::new(b"FLTS", 3, 3), &[2.0])
        .constant(IndirectScaleV.into(), &[1.25]);
    idle.material("M_Cursor")
        .step(Texture0, &[(0.0, 0.0), (12.0, 1.0), (24.0, 2.0), (36.0, 1.0)])
        // A row that the sheet doesn't have, from frame 40 on: the slot then has no override.
        .step(Texture1, &[(0.0, 0.0), (40.0, 9.0)])
        .hermite(WhiteRed, &[(0.0, 255.0, 0.0), (24.0, 64.0, 0.0), (48.0, 255.0, 0.0)]);
}

/// A button was pressed: the menu fades and the screen ends.
fn decide(sheet: &mut SheetBuilder) {
    let decide = sheet.animation(10);
    decide.pane("Menu").hermite(Alpha, &[(0.0, 255.0, 0.0), (8.0, 0.0, 0.0)]);
    decide
        .pane("ButtonStart")
        .hermite(ScaleX, &[(0.0, 1.0, 0.0), (4.0, 1.25, 0.0), (8.0, 1.0, 0.0)])
        // The last target of a channel is the one that counts.
        .hermite(ScaleX, &[(0.0, 1.0, 0.125), (4.0, 1.5, 0.0), (8.0, 1.0, 0.0)]);
    // No pane has this label, and user data addresses nothing.
    decide.pane("ButtonCredits").constant(Visible, &[1.0]);
    decide.content(ContentKind::User, "Menu").constant(Address::new(b"FLEU", 0, 0), &[1.0]);
}

pub fn book() -> Result<Vec<u8>, BuildError> {
    let mut book = BookBuilder::new();
    panes(&mut book);
    let tiled = Srt { translate: Vector2f { x: 0.5, y: 0.0 }, scale: Vector2f { x: 2.0, y: 2.0 }, ..Srt::IDENTITY };
    book.material("M_Sky").textures(["sky_night", "cloud", ""]).srts([Srt::IDENTITY, tiled, Srt::IDENTITY]);
    book.material("M_Logo").textures(["logo", "shine_mask", ""]);
    book.material("M_Cursor").textures(["cursor_0", "cursor_glow", ""]);
    book.build()
}

fn panes(book: &mut BookBuilder) {
    book.pane("RootPane").size(1280.0, 720.0);
    book.pane("Sky").parent("RootPane").alpha(204).translation(0.0, 0.0, -10.0).size(1280.0, 720.0);
    book.pane("Logo").parent("RootPane").translation(0.0, 120.0, 0.0).size(512.0, 192.0);
    book.pane("LogoShine").parent("Logo").visible(false).alpha(128).size(512.0, 192.0);
    book.pane("Menu").parent("RootPane").translation(0.0, -140.0, 0.0).size(400.0, 160.0);
    for (button, text, y, alpha) in [
        ("ButtonStart", "ButtonStartText", 40.0, 255),
        ("ButtonOptions", "ButtonOptionsText", -40.0, 153),
    ] {
        book.pane(button).parent("Menu").alpha(alpha).translation(0.0, y, 0.0).size(320.0, 56.0);
        let text = book.pane(text).parent(button).translation(-140.0, 0.0, 0.0).size(280.0, 40.0);
        text.origins(Horizontal::Left, Vertical::Center);
    }
    // Hands its children its parent's alpha and not its own.
    let cursor = book.pane("Cursor").parent("Menu").translation(-180.0, 40.0, 1.0).size(32.0, 32.0);
    cursor.alpha(230).influences_alpha(false);
    book.pane("CursorTrail").parent("Cursor").translation(-24.0, 0.0, 0.0).size(16.0, 16.0);
    let text = book.pane("PressAnyKey").parent("RootPane").translation(0.0, -330.0, 0.0).size(480.0, 32.0);
    text.origins(Horizontal::Center, Vertical::Bottom);
}
