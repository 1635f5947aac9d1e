//! The drawing of one frame: the panes that are shown, with their labels.

use dovebolt::{BookView, Pane, Vector2f};

use super::rect::{Rect, apart, within};
use super::stage::Shown;
use super::{svg, words};

/// A pane that others lie on, or that covers most of the stage, is filled faintly.
const FAINT: f64 = 0.22;
const PLAIN: f64 = 0.7;
const MOST_OF_THE_STAGE: f64 = 0.5;

/// Below this alpha a label would stand on next to nothing.
const LEAST_LABELLED: f64 = 0.25;

/// The stage of a book whose first pane has no size.
const USUAL: (f64, f64) = (1280.0, 720.0);

/// What lies further out is cut off anyway, and a number of any size can't be drawn.
const FAR: f64 = 1e5;

/// The part of the layout that a cell shows, as large as the first pane, about its middle.
pub struct View {
    pub width: f64,
    pub height: f64,
    scale: f64,
}

impl View {
    /// A cell of this width; it is no more than half as high again.
    pub fn new(size: Vector2f, width: f64) -> View {
        let (x, y) = (f64::from(size.x), f64::from(size.y));
        let usable = x > 0.0 && y > 0.0 && (y / x).is_finite();
        let (x, y) = if usable { (x, y) } else { USUAL };
        let height = (width / x * y).clamp(width * 0.25, width * 1.5);
        View {
            width,
            height,
            scale: (width / x).min(height / y),
        }
    }

    fn point(&self, p: Vector2f) -> (f64, f64) {
        let (x, y) = (f64::from(p.x) * self.scale, f64::from(p.y) * self.scale);
        (
            (x + self.width * 0.5).clamp(-FAR, FAR),
            (y + self.height * 0.5).clamp(-FAR, FAR),
        )
    }

    fn outline(&self, s: &Shown) -> Outline {
        let c = s.corners;
        Outline {
            corners: [c.top_left, c.top_right, c.bottom_right, c.bottom_left]
                .map(|p| self.point(p)),
            pane: s.pane,
            alpha: f64::from(s.alpha).clamp(0.0, 1.0),
        }
    }
}

/// A pane's outline in a cell.
struct Outline {
    corners: [(f64, f64); 4],
    pane: Pane,
    alpha: f64,
}

impl Outline {
    /// Whether there are numbers to draw: a curve may give NaNs.
    fn drawable(&self) -> bool {
        let finite = |(x, y): &(f64, f64)| x.is_finite() && y.is_finite();
        self.corners.iter().all(finite) && self.alpha.is_finite()
    }

    fn rect(&self) -> Rect {
        let [xs, ys] = [self.corners.map(|c| c.0), self.corners.map(|c| c.1)];
        let low = |all: [f64; 4]| all.into_iter().fold(f64::INFINITY, f64::min);
        let high = |all: [f64; 4]| all.into_iter().fold(f64::NEG_INFINITY, f64::max);
        (low(xs), low(ys), high(xs), high(ys))
    }

    fn points(&self) -> String {
        let points = self.corners.map(|(x, y)| format!("{x:.1},{y:.1}"));
        points.join(" ")
    }

    fn draw(&self, fill: f64) -> String {
        format!(
            "<polygon points=\"{}\" fill=\"{}\" fill-opacity=\"{fill}\" stroke=\"{}\" opacity=\"{:.2}\"/>\n",
            self.points(),
            svg::fill(&self.pane),
            svg::stroke(&self.pane),
            self.alpha
        )
    }

    /// Where the label may go: inside the pane at its top left, or outside it, above or below.
    fn label_places(&self, label: &str) -> Vec<Rect> {
        let (left, top, right, bottom) = self.rect();
        let (wide, high) = (words::width(label, svg::SMALL), svg::SMALL + 1.0);
        let at = |x: f64, y: f64| (x, y, x + wide, y + high);
        let fits = wide + 6.0 <= right - left && high + 3.0 <= bottom - top;
        let inside = fits.then(|| at(left + 4.0, top + 2.0));
        inside
            .into_iter()
            .chain([at(left, top - high - 2.0), at(left, bottom + 1.0)])
            .collect()
    }
}

/// The first place of a label that is on the stage, crosses no outline and lies on no pane above its own.
fn free_place(
    view: &View,
    outlines: &[Outline],
    n: usize,
    label: &str,
    taken: &[Rect],
) -> Option<Rect> {
    let stage = (0.0, 0.0, view.width, view.height);
    let own = outlines[n].rect();
    let clear = |place: &Rect| {
        let under = outlines[..=n]
            .iter()
            .all(|o| apart(place, &o.rect()) || within(place, &o.rect()));
        let over = outlines[n + 1..]
            .iter()
            .all(|o| apart(place, &o.rect()) || o.rect() == own);
        within(place, &stage) && under && over && taken.iter().all(|t| apart(place, t))
    };
    outlines[n].label_places(label).into_iter().find(clear)
}

/// How strongly a pane is filled.
fn fill_of(book: BookView, view: &View, outline: &Outline) -> f64 {
    let (left, top, right, bottom) = outline.rect();
    let wide = (right - left) * (bottom - top) > view.width * view.height * MOST_OF_THE_STAGE;
    let mut panes = book.panes();
    let parent = panes.any(|p| p.parent == Some(outline.pane.number));
    if wide || parent { FAINT } else { PLAIN }
}

/// Panes whose outlines are drawn once more, on top of all panes, and the attributes of that line.
pub struct Outlined<'a> {
    pub panes: &'a [u16],
    pub line: &'a str,
}

impl Outlined<'_> {
    fn draw(&self, view: &View, shown: &[Shown]) -> String {
        let marked = shown.iter().filter(|s| self.panes.contains(&s.pane.number));
        let outlines = marked.map(|s| view.outline(s)).filter(Outline::drawable);
        let line = |o: Outline| {
            format!(
                "<polygon points=\"{}\" fill=\"none\" {}/>\n",
                o.points(),
                self.line
            )
        };
        outlines.map(line).collect()
    }
}

/// The panes of a frame, then outlines that are asked for and labels. Pane 0 is the stage itself.
pub fn drawing(view: &View, book: BookView, shown: &[Shown], outlined: &[Outlined]) -> String {
    let outlines: Vec<Outline> = shown
        .iter()
        .filter(|s| s.pane.number > 0)
        .map(|s| view.outline(s))
        .filter(Outline::drawable)
        .collect();
    let mut out: String = outlines
        .iter()
        .map(|o| o.draw(fill_of(book, view, o)))
        .collect();
    out.extend(outlined.iter().map(|o| o.draw(view, shown)));
    let mut taken = vec![];
    for (n, o) in outlines.iter().enumerate() {
        let label = o.pane.label.text();
        if o.alpha < LEAST_LABELLED {
            continue;
        }
        if let Some(place) = free_place(view, &outlines, n, &label, &taken) {
            let ink = svg::stroke(&o.pane);
            out += &svg::text(place.0, place.3 - 2.0, svg::SMALL, &ink, "", &label);
            taken.push(place);
        }
    }
    out
}
