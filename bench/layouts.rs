//! The baseline of `bench/layouts`: plain Rust that does what `oas_bench layouts` does, with the same tests and counters.

use std::collections::BTreeMap;
use std::time::Instant;

#[derive(Clone, Copy, PartialEq, Eq, PartialOrd, Ord)]
struct Point {
    x: i64,
    y: i64,
}

#[allow(dead_code)]
#[derive(PartialEq, Eq, PartialOrd, Ord)]
enum Element {
    Placement { cell: Vec<u8>, x: i64, y: i64, turns: u8, flip: bool },
    Text { string: Vec<u8>, textlayer: u64, texttype: u64, x: i64, y: i64 },
    Rectangle { layer: u64, datatype: u64, width: u64, height: u64, x: i64, y: i64 },
    Polygon { layer: u64, datatype: u64, points: Vec<Point> },
    Path { layer: u64, datatype: u64, half_width: u64, start: i64, end: i64, points: Vec<Point> },
    Circle { layer: u64, datatype: u64, radius: u64, x: i64, y: i64 },
}

const GRID: i64 = 1 << 60;

fn is_coordinate(x: i64) -> bool {
    -GRID <= x && x <= GRID
}

fn reaches(x: i64, side: u64) -> bool {
    is_coordinate(x) && side <= 2 * GRID as u64 && is_coordinate(x + side as i64)
}

fn are_coordinates(points: &[Point]) -> bool {
    points.iter().all(|p| is_coordinate(p.x) && is_coordinate(p.y))
}

impl Element {
    fn weight(&self) -> u64 {
        match self {
            Element::Placement { cell, .. } => 1 + cell.len() as u64,
            Element::Text { string, .. } => 1 + string.len() as u64,
            Element::Polygon { points, .. } | Element::Path { points, .. } => 1 + points.len() as u64,
            Element::Rectangle { .. } | Element::Circle { .. } => 1,
        }
    }

    fn lacks_points(&self) -> bool {
        match self {
            Element::Polygon { points, .. } => points.len() < 3,
            Element::Path { points, .. } => points.is_empty(),
            _ => false,
        }
    }

    fn fits_grid(&self) -> bool {
        match self {
            Element::Placement { x, y, .. } | Element::Text { x, y, .. } => is_coordinate(*x) && is_coordinate(*y),
            Element::Rectangle { width, height, x, y, .. } => reaches(*x, *width) && reaches(*y, *height),
            Element::Polygon { points, .. } => are_coordinates(points),
            Element::Path { half_width, start, end, points, .. } => {
                *half_width <= GRID as u64 && is_coordinate(*start) && is_coordinate(*end) && are_coordinates(points)
            }
            Element::Circle { radius, x, y, .. } => *radius <= GRID as u64 && is_coordinate(*x) && is_coordinate(*y),
        }
    }
}

/// The least rotation, by two candidates that advance; `at` is the place of the k-th point of the direction.
fn least_turn(count: usize, at: impl Fn(usize) -> Point) -> usize {
    let (mut best, mut rival, mut agreed) = (0, 1, 0);
    while rival < count && agreed < count {
        let a = at((best + agreed) % count);
        let b = at((rival + agreed) % count);
        if a == b {
            agreed += 1;
        } else if a < b {
            rival += agreed + 1;
            agreed = 0;
        } else {
            let next = usize::max(rival, best + agreed) + 1;
            best = rival;
            rival = next;
            agreed = 0;
        }
    }
    best
}

/// The points in their least reading, where that is another.
fn least_reading(points: &[Point]) -> Option<Vec<Point>> {
    let count = points.len();
    let forwards = least_turn(count, |k| points[k]);
    let backwards = least_turn(count, |k| points[count - 1 - k]);
    let there = |k: usize| points[(forwards + k) % count];
    let back = |k: usize| points[count - 1 - (backwards + k) % count];
    if (0..count).map(there).le((0..count).map(back)) {
        if forwards == 0 {
            return None;
        }
        Some((0..count).map(there).collect())
    } else {
        Some((0..count).map(back).collect())
    }
}

struct Draft {
    cells: Vec<(Vec<u8>, BTreeMap<Element, u64>)>,
    count: u64,
    weight: u64,
}

const MOST: u64 = 1 << 26;
const HEAVIEST: u64 = 1 << 30;

impl Draft {
    fn add(&mut self, cell: usize, element: Element) -> Result<(), Element> {
        if element.lacks_points() || self.count >= MOST {
            return Err(element);
        }
        let weight = element.weight();
        if weight > HEAVIEST - self.weight || !element.fits_grid() {
            return Err(element);
        }
        let kept = match element {
            Element::Polygon { layer, datatype, points } => {
                let points = least_reading(&points).unwrap_or(points);
                Element::Polygon { layer, datatype, points }
            }
            element => element,
        };
        *self.cells[cell].1.entry(kept).or_insert(0) += 1;
        self.count += 1;
        self.weight += weight;
        Ok(())
    }
}

struct Numbers(u64);

impl Numbers {
    fn next(&mut self) -> u64 {
        self.0 ^= self.0 << 13;
        self.0 ^= self.0 >> 7;
        self.0 ^= self.0 << 17;
        self.0
    }
}

fn rectangle(x: i64) -> Element {
    Element::Rectangle { layer: 1, datatype: 0, width: 10, height: 20, x, y: 0 }
}

fn polygon(x: i64) -> Element {
    let (far, half) = (x.wrapping_add(10), x.wrapping_add(5));
    let mut points = Vec::with_capacity(6);
    for (x, y) in [(far, 0), (far, 5), (half, 5), (half, 10), (x, 10), (x, 0)] {
        points.push(Point { x, y });
    }
    Element::Polygon { layer: 1, datatype: 0, points }
}

fn main() {
    let words: Vec<String> = std::env::args().collect();
    let (polygons, random, count) = (words[2] == "polygons", words[3] == "random", words[4].parse::<u64>().unwrap());
    let start = Instant::now();
    let mut draft = Draft { cells: vec![(b"A".to_vec(), BTreeMap::new())], count: 0, weight: 2 };
    let mut numbers = Numbers(0x9e37_79b9_7f4a_7c15);
    for k in 0..count {
        let place = if random { numbers.next() } else { k };
        let x = (place % (1 << 40)) as i64;
        let element = if polygons { polygon(x) } else { rectangle(x) };
        if draft.add(0, element).is_err() {
            panic!("refused");
        }
    }
    draft.cells.sort_by(|a, b| a.0.cmp(&b.0));
    let built = start.elapsed();
    let distinct = draft.cells[0].1.iter().count();
    let read = start.elapsed();
    println!("{} elements, {distinct} distinct, weight {}", draft.count, draft.weight);
    eprintln!("{} {}", built.as_micros(), read.as_micros());
}
