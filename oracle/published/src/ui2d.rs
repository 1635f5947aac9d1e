//! Vectors and user data.

pub mod userdata {
    include!("../../../../shared/docs/src--nnbfl--src--ui2d--userdata.rs.txt");
}

/// Stand-in for types.rs, which is not published. Document 01: a vector is
/// added by component.
pub mod types {
    use std::ops::Add;

    #[derive(Clone, Copy, Debug, Default, PartialEq)]
    pub struct Vector2f {
        pub x: f32,
        pub y: f32,
    }

    impl Vector2f {
        pub fn new(x: f32, y: f32) -> Self {
            Self { x, y }
        }
    }

    impl Add for Vector2f {
        type Output = Self;

        fn add(self, other: Self) -> Self {
            Self::new(self.x + other.x, self.y + other.y)
        }
    }

    #[derive(Clone, Copy, Debug, Default, PartialEq)]
    pub struct Vector3f {
        pub x: f32,
        pub y: f32,
        pub z: f32,
    }
}

/// Stand-in: user data that is not a text is not looked at.
pub mod systemdata {
    use crate::core::{Cursor, FormatError, Writer};

    #[derive(Clone, Debug)]
    pub enum SystemData {
        Pane(PaneData),
        Layout(LayoutData),
    }

    #[derive(Clone, Debug)]
    pub struct PaneData;

    #[derive(Clone, Debug)]
    pub struct LayoutData;

    impl PaneData {
        pub fn parse(_: &mut Cursor) -> Result<Self, FormatError> {
            unimplemented!("parsing is left out")
        }

        pub fn write(&self, _: &mut Writer) {
            unimplemented!("writing is left out")
        }
    }

    impl LayoutData {
        pub fn parse(_: &mut Cursor) -> Result<Self, FormatError> {
            unimplemented!("parsing is left out")
        }

        pub fn write(&self, _: &mut Writer) {
            unimplemented!("writing is left out")
        }
    }
}
