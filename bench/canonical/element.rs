//! The elements of a cell, in canonical order, and the limits of the grid.

#[derive(Clone, Copy, PartialEq, Eq, PartialOrd, Ord)]
pub struct Point {
    pub x: i64,
    pub y: i64,
}

pub enum Element {
    Placement { cell: Vec<u8>, x: i64, y: i64, turns: u8, flip: bool },
    Text { string: Vec<u8>, textlayer: u64, texttype: u64, x: i64, y: i64 },
    Rectangle { layer: u64, datatype: u64, width: u64, height: u64, x: i64, y: i64 },
    Polygon { layer: u64, datatype: u64, points: Vec<Point> },
    Path { layer: u64, datatype: u64, half_width: u64, start: i64, end: i64, points: Vec<Point> },
    Circle { layer: u64, datatype: u64, radius: u64, x: i64, y: i64 },
}

/// An element whose string is still a number.
#[derive(PartialEq, Eq, PartialOrd, Ord)]
pub enum Numbered {
    Placement { number: u64, x: i64, y: i64, turns: u8, flip: bool },
    Text { number: u64, textlayer: u64, texttype: u64, x: i64, y: i64 },
}

pub const GRID: i64 = 1 << 60;

pub fn is_coordinate(x: i64) -> bool {
    (-GRID..=GRID).contains(&x)
}

fn is_length(length: u64) -> bool {
    length <= GRID as u64
}

/// The coordinate `by` from `at`, where it is within the grid.
pub fn moved(at: i64, by: i128) -> Option<i64> {
    let to = i64::try_from(i128::from(at).checked_add(by)?).ok()?;
    is_coordinate(to).then_some(to)
}

impl Element {
    /// The rectangle between two corners.
    pub fn rectangle(layer: u64, datatype: u64, low: Point, high: Point) -> Element {
        let (width, height) = (high.x.abs_diff(low.x), high.y.abs_diff(low.y));
        Element::Rectangle { layer, datatype, width, height, x: low.x, y: low.y }
    }

    /// Whether all of it is within the grid. Its positions and points are known to be.
    pub fn fits_grid(&self) -> bool {
        match self {
            Element::Rectangle { width, height, x, y, .. } => {
                moved(*x, i128::from(*width)).is_some() && moved(*y, i128::from(*height)).is_some()
            }
            Element::Path { half_width, start, end, .. } => {
                is_length(*half_width) && is_coordinate(*start) && is_coordinate(*end)
            }
            Element::Circle { radius, .. } => is_length(*radius),
            Element::Placement { .. } | Element::Text { .. } | Element::Polygon { .. } => true,
        }
    }
}
