//! The command line from outside: the starter `menu_cli` is run on the samples and on files that are made here, and what it
//! prints is held against docs/FORMAT.md's offsets and against what this package answers. In the repository's root,
//! `(cd crates/menu_cli && rt run -- version)` builds it.

#[path = "command_line/broken_books.rs"]
mod broken_books;
#[path = "command_line/broken_rules.rs"]
mod broken_rules;
#[path = "command_line/declined.rs"]
mod declined;
#[path = "command_line/errors.rs"]
mod errors;
#[path = "command_line/every_byte.rs"]
mod every_byte;
#[path = "command_line/frames.rs"]
mod frames;
#[path = "command_line/info.rs"]
mod info;
#[path = "command_line/json.rs"]
mod json;
#[path = "command_line/numbers.rs"]
mod numbers;
#[path = "command_line/objects.rs"]
mod objects;
#[path = "command_line/program.rs"]
mod program;
#[path = "common/random.rs"]
mod random;
#[path = "command_line/raw_bytes.rs"]
mod raw_bytes;
#[path = "command_line/reach.rs"]
mod reach;
#[path = "command_line/reach_chance.rs"]
mod reach_chance;
#[path = "command_line/replay.rs"]
mod replay;
#[path = "command_line/saving.rs"]
mod saving;
#[path = "command_line/status.rs"]
mod status;
