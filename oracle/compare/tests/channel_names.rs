//! Each raw number of FLVC through the package `dovebolt`: the channel of the
//! name that targets.rs has for the number is read, and no other.

use cases::{channel_names, reached};
use dovebolt::{MaterialChannel, PaneChannel, Player, Reading};

#[test]
fn each_raw_number_reaches_the_channel_of_its_name() {
    let book = reached::book().write();
    for raw in 0..=255 {
        for (kind, curve) in [(0, 0), (0, 1), (0, 2), (3, 0), (3, 1), (3, 2)] {
            let sheet = reached::sheet(raw, kind, curve).write();
            let (mut player, keys) = Player::load(&sheet).expect("a good sheet");
            player.pose(&sheet, Some(0), 0.0).expect("a pose");
            for channel in PaneChannel::ALL {
                let read = player.read_pane(&sheet, &book, &keys, 0, channel);
                let named = channel.name() == channel_names::corner_or_alpha(raw);
                let expected = if named {
                    Reading::Number(51.0 / 255.0)
                } else {
                    Reading::Nothing
                };
                assert_eq!(read, Ok(expected), "raw {raw}, {channel}");
            }
        }
    }
}

#[test]
fn every_name_is_that_of_targets_rs() {
    let panes = PaneChannel::ALL.map(PaneChannel::name);
    assert_eq!(panes.as_slice(), channel_names::of_panes());
    let materials = MaterialChannel::ALL.map(MaterialChannel::name);
    assert_eq!(materials.as_slice(), channel_names::of_materials());
}
