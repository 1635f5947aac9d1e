//! How panes hang together: what a pane is handed by those above it.

use dovebolt::{BookView, Pane, PaneChannel, Touched};

/// What a pane above hands down that can differ.
pub struct Handed {
    pub pane: Pane,
    pub visible: bool,
    pub alpha: bool,
}

/// The panes above one, its parent first.
fn above(book: BookView, pane: u16) -> impl Iterator<Item = Pane> {
    let parent = move |pane: &Pane| pane.parent.and_then(|number| book.pane(number));
    std::iter::successors(book.pane(pane), parent).skip(1)
}

/// The panes above whose own visible or alpha is touched and handed down: these its row of the cascade follows. An alpha is
/// handed down by a pane that influences its children's.
pub fn followed(book: BookView, touched: &Touched, pane: u16) -> Vec<Handed> {
    let own = |above: &Pane, channel: PaneChannel| touched.channel(channel.place(above.number));
    let handed = |above: Pane| Handed {
        visible: own(&above, PaneChannel::Visible),
        alpha: above.influences_alpha && own(&above, PaneChannel::Alpha),
        pane: above,
    };
    let all = above(book, pane).map(handed);
    all.filter(|h| h.visible || h.alpha).collect()
}

/// The panes above whose translation, rotation or scale is touched: the pane is drawn where they carry it.
pub fn carriers(book: BookView, touched: &Touched, pane: u16) -> Vec<Pane> {
    let moves = |above: &Pane| {
        let mut own = touched.pane_channels(above.number);
        own.any(|channel| channel <= PaneChannel::ScaleY)
    };
    above(book, pane).filter(moves).collect()
}
