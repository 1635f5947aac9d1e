//! Rectangles: left, top, right and bottom.

pub type Rect = (f64, f64, f64, f64);

pub fn apart(a: &Rect, b: &Rect) -> bool {
    a.0 > b.2 || b.0 > a.2 || a.1 > b.3 || b.1 > a.3
}

pub fn within(a: &Rect, b: &Rect) -> bool {
    b.0 <= a.0 && a.2 <= b.2 && b.1 <= a.1 && a.3 <= b.3
}

pub fn holds(a: &Rect, (x, y): (f64, f64)) -> bool {
    a.0 <= x && x <= a.2 && a.1 <= y && y <= a.3
}
