//! Builds a book: panes and materials.

use super::error::{BuildError, Problem, Row};
use super::{layout, rules};
use crate::answers::{Srt, Transform};
use crate::raw::{Vector2f, Vector3f};
use crate::view::{BookView, Horizontal, Vertical};

/// Builds a book. Rows come in the order of the calls; sizes, parents' numbers and padding are worked out.
///
/// ```
/// use dovebolt::{BookBuilder, BookView, Horizontal, Vertical};
///
/// let mut book = BookBuilder::new();
/// book.pane("Root").size(1280.0, 720.0);
/// book.pane("Logo").parent("Root").translation(0.0, 120.0, 0.0).size(512.0, 192.0).alpha(204);
/// book.pane("Text").parent("Logo").origins(Horizontal::Left, Vertical::Center).visible(false);
/// book.material("M_Sky").textures(["sky_dawn", "cloud", ""]);
/// let bytes = book.build()?;
///
/// let text = BookView::of(&bytes)?.pane(2).unwrap();
/// assert_eq!((text.parent, text.visible, text.horizontal), (Some(1), false, Horizontal::Left));
/// # Ok::<(), Box<dyn std::error::Error>>(())
/// ```
#[derive(Clone, Debug, Default, PartialEq)]
pub struct BookBuilder {
    pub(super) panes: Vec<PaneBuilder>,
    pub(super) materials: Vec<MaterialBuilder>,
}

/// A pane of a book that is built: [`BookBuilder::pane`].
#[derive(Clone, Debug, PartialEq)]
pub struct PaneBuilder {
    pub(super) label: String,
    pub(super) parent: Option<String>,
    pub(super) visible: bool,
    pub(super) influences_alpha: bool,
    pub(super) alpha: u8,
    pub(super) origins: (Horizontal, Vertical),
    pub(super) transform: Transform,
}

/// A material of a book that is built: [`BookBuilder::material`].
#[derive(Clone, Debug, PartialEq)]
pub struct MaterialBuilder {
    pub(super) name: String,
    pub(super) textures: [String; 3],
    pub(super) srts: [Srt; 3],
}

impl BookBuilder {
    /// A book without rows.
    pub fn new() -> BookBuilder {
        BookBuilder::default()
    }

    /// Adds a pane without a parent: shown, influencing alpha, alpha 255, centred, at 0, scale 1, size 0.
    ///
    /// ```
    /// use dovebolt::{BookBuilder, Row};
    ///
    /// let mut book = BookBuilder::new();
    /// book.pane("Root");
    /// book.pane("Logo").parent("Rot");
    /// let error = book.build().unwrap_err();
    /// assert_eq!(error.row(), Row::Pane(1));
    /// assert_eq!(error.to_string(), "pane 1 (\"Logo\"): its parent \"Rot\" is no earlier pane");
    /// ```
    pub fn pane(&mut self, label: &str) -> &mut PaneBuilder {
        self.panes.push(PaneBuilder {
            label: label.into(),
            parent: None,
            visible: true,
            influences_alpha: true,
            alpha: 255,
            origins: Default::default(),
            transform: Transform {
                scale: Vector2f { x: 1.0, y: 1.0 },
                ..Transform::default()
            },
        });
        self.panes.last_mut().expect("one was pushed")
    }

    /// Adds a material without textures, its layers' SRTs the identity.
    ///
    /// ```
    /// use dovebolt::{BookBuilder, BookView, Srt, Vector2f};
    ///
    /// let mut book = BookBuilder::new();
    /// book.pane("Root");
    /// let tiled = Srt { scale: Vector2f { x: 2.0, y: 2.0 }, ..Srt::IDENTITY };
    /// book.material("M_Sky").textures(["sky", "cloud", ""]).srts([Srt::IDENTITY, tiled, Srt::IDENTITY]);
    /// let bytes = book.build()?;
    /// assert_eq!(BookView::of(&bytes)?.material(0).unwrap().srts[1], tiled);
    /// # Ok::<(), Box<dyn std::error::Error>>(())
    /// ```
    pub fn material(&mut self, name: &str) -> &mut MaterialBuilder {
        self.materials.push(MaterialBuilder {
            name: name.into(),
            textures: Default::default(),
            srts: [Srt::IDENTITY; 3],
        });
        self.materials.last_mut().expect("one was pushed")
    }

    /// The book's bytes, which the proved code has accepted, or the first row that breaks a rule, panes first.
    ///
    /// ```
    /// use dovebolt::BookBuilder;
    ///
    /// let mut book = BookBuilder::new();
    /// assert_eq!(book.build().unwrap_err().to_string(), "the book: there is no pane");
    /// book.pane("Root").size(f32::NAN, 720.0);
    /// assert_eq!(book.build().unwrap_err().to_string(), "pane 0 (\"Root\"): the size is not finite: NaN");
    /// ```
    pub fn build(&self) -> Result<Vec<u8>, BuildError> {
        rules::book(self)?;
        let bytes = layout::book(self);
        match BookView::of(&bytes) {
            Ok(_) => Ok(bytes),
            Err(refusal) => Err(BuildError::new(
                Row::Book,
                Row::Book,
                Problem::Declined(refusal),
            )),
        }
    }
}

impl PaneBuilder {
    /// Its parent, the label of an earlier pane.
    pub fn parent(&mut self, label: &str) -> &mut PaneBuilder {
        self.parent = Some(label.into());
        self
    }

    /// Whether it is shown.
    pub fn visible(&mut self, visible: bool) -> &mut PaneBuilder {
        self.visible = visible;
        self
    }

    /// Whether its alpha is a factor of its children's.
    pub fn influences_alpha(&mut self, influences: bool) -> &mut PaneBuilder {
        self.influences_alpha = influences;
        self
    }

    /// Its alpha, 255 for opaque.
    pub fn alpha(&mut self, alpha: u8) -> &mut PaneBuilder {
        self.alpha = alpha;
        self
    }

    /// Where its pivot is.
    pub fn origins(&mut self, horizontal: Horizontal, vertical: Vertical) -> &mut PaneBuilder {
        self.origins = (horizontal, vertical);
        self
    }

    /// Where it is under its parent.
    pub fn translation(&mut self, x: f32, y: f32, z: f32) -> &mut PaneBuilder {
        self.transform.translation = Vector3f { x, y, z };
        self
    }

    /// Its rotation about three axes, in degrees.
    pub fn rotation(&mut self, x: f32, y: f32, z: f32) -> &mut PaneBuilder {
        self.transform.rotation = Vector3f { x, y, z };
        self
    }

    /// Its scale.
    pub fn scale(&mut self, x: f32, y: f32) -> &mut PaneBuilder {
        self.transform.scale = Vector2f { x, y };
        self
    }

    /// Its size.
    pub fn size(&mut self, x: f32, y: f32) -> &mut PaneBuilder {
        self.transform.size = Vector2f { x, y };
        self
    }
}

impl MaterialBuilder {
    /// The texture name of each slot; an empty one is none.
    pub fn textures(&mut self, names: [&str; 3]) -> &mut MaterialBuilder {
        self.textures = names.map(String::from);
        self
    }

    /// The SRT of each layer.
    pub fn srts(&mut self, srts: [Srt; 3]) -> &mut MaterialBuilder {
        self.srts = srts;
        self
    }
}
