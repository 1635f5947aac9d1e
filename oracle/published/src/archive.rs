//! Stand-in: where an animation was loaded from is not looked at.

pub struct EntryPath;
