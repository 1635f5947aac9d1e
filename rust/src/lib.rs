//! Dovebolt plays a menu's animations. The work is done by proved code, which this crate links and wraps: each call
//! meets a contract that says what it answers, and when it declines.
//!
//! A *sheet* holds the animations, a *book* the panes and materials that they move; both are bytes. [`Player::load`]
//! takes the sheet's keys out of it. What a call declines it declines by a [`Refusal`], and then nothing has changed.
//!
//! ```
//! use dovebolt::{Player, Tick, example};
//!
//! let (sheet, book) = (example::sheet(), example::book());
//! let (mut player, mut keys) = Player::load(&sheet)?;
//! player.play(&sheet, Some(0))?;
//! while player.tick(&sheet, 1.0 / 60.0, 60.0)? == Tick::Running {
//!     let logo = player.resolve_pane(&sheet, &book, &keys, 1)?;
//!     println!("frame {}: {:?}", player.frame(), logo.transform.translation);
//! }
//! player.key_edit(&sheet, &mut keys, 3, 1, 6.0, 20.0)?;
//! let edited = player.save(&sheet, &keys)?;
//! assert_eq!(Player::load(&edited)?.1, keys);
//! player.undo(&sheet, &mut keys)?;
//! assert_eq!(player.save(&sheet, &keys)?, sheet);
//! # Ok::<(), dovebolt::Refusal>(())
//! ```
//!
//! A key that follows the mouse is dragged: it is moved any number of times, and undo sees one edit at most. Where an
//! edit or a drag leaves the key as it was, undo sees none, and what was undone can still be redone:
//! [`Edited::Unchanged`].
//!
//! ```
//! use dovebolt::{Player, example};
//!
//! let sheet = example::sheet();
//! let (mut player, mut keys) = Player::load(&sheet)?;
//! player.pose(&sheet, Some(0), 0.0)?;
//! player.open_drag(&sheet, &keys, 3, 1)?; // track 3, key 1
//! for step in 1..=40 {
//!     player.drag(&sheet, &mut keys, 6.0, 0.5 * step as f32)?;
//! }
//! player.drop_drag(&sheet, &keys)?; // `abandon_drag` would put the key back
//! assert_eq!((player.reach(), keys.values[6]), (1, 20.0));
//! player.undo(&sheet, &mut keys)?;
//! assert_eq!(player.save(&sheet, &keys)?, sheet);
//! # Ok::<(), dovebolt::Refusal>(())
//! ```
//!
//! Which channels and panes an edit reaches is told by [`touched`]; everything that it doesn't mark is proved to read the same
//! before the edit and after it, at every frame.
//!
//! Sheets and books are written by builders, which check what they are given and name the row that breaks a rule, and read
//! row by row by views, which are made only of what the proved code accepts.
//!
//! ```
//! use dovebolt::{BookBuilder, BookView, PaneChannel, SheetBuilder, SheetView};
//!
//! let mut sheet = SheetBuilder::new();
//! let appear = sheet.animation(16).next("Idle");
//! appear.pane("Logo").hermite(PaneChannel::TranslateY, &[(0.0, 360.0, 0.0), (12.0, 96.0, 0.0)]);
//! let mut book = BookBuilder::new();
//! book.pane("Root").size(1280.0, 720.0);
//! book.pane("Logo").parent("Root").size(512.0, 192.0);
//!
//! let (sheet, book) = (sheet.build()?, book.build()?);
//! let (sheet, book) = (SheetView::of(&sheet)?, BookView::of(&book)?);
//! for track in sheet.tracks() {
//!     let (pane, channel) = book.reached(&track).unwrap();
//!     assert_eq!((pane, channel.name(), track.key_count), (1, "translate_y", 2));
//! }
//! # Ok::<(), Box<dyn std::error::Error>>(())
//! ```

mod address;
mod answers;
mod builder;
mod channels;
mod dragging;
pub mod example;
mod formats;
mod keys;
mod player;
pub mod raw;
mod reach;
mod readings;
mod refusal;
mod shapes;
mod view;

pub use address::{Address, Channel, ContentKind};
pub use answers::{Cascaded, Channels, Edited, Reading, ResolvedPane, Srt, Tick, Transform};
pub use builder::{
    AnimationBuilder, BookBuilder, BuildError, ContentBuilder, MaterialBuilder, PaneBuilder,
    Problem, Row, SheetBuilder,
};
pub use channels::{MaterialChannel, PaneChannel};
pub use dragging::Drag;
pub use formats::{
    Name, channel_count, key_count, material_count, next_name, next_name_into, pane_count,
};
pub use keys::{Key, Keys};
pub use player::Player;
pub use raw::{Corners, Vector2f, Vector3f};
pub use reach::{PaneTouched, Touched, touched, touched_into};
pub use refusal::Refusal;
pub use shapes::{Uvs, corners, rotate_point, translate, uvs, uvs_into};
pub use view::{
    Animation, BookView, Content, Curve, Horizontal, Material, Pane, SheetView, Track, Vertical,
};
