//! Channels by name, where there is one of that number.

use crate::channel_names;

pub fn of_pane(channel: u16) -> Option<String> {
    channel_names::of_panes().into_iter().nth(channel.into())
}

pub fn of_material(channel: u16) -> Option<String> {
    channel_names::of_materials()
        .into_iter()
        .nth(channel.into())
}
