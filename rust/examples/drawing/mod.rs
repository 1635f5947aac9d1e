//! How the example programs draw an animation: the stage with its panes, and a track's curve on its axes.

pub mod axis;
pub mod cell;
pub mod keys;
pub mod menu;
pub mod plot;
pub mod rect;
pub mod samples;
pub mod stage;
pub mod svg;
pub mod unit;
pub mod words;
