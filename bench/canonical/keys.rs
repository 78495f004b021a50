//! An element as bytes whose order is the elements' order, and read back from them.

use crate::element::{Element, Point};

/// How many first bytes numbers of a class have, and how many bytes follow; ascending.
type Class = (u8, u32);
const UNSIGNED: [Class; 8] = [(128, 0), (64, 1), (32, 2), (16, 3), (8, 4), (4, 5), (2, 6), (1, 8)];
const SIGNED: [Class; 8] = [(32, 0), (40, 1), (32, 2), (8, 3), (4, 4), (4, 5), (4, 6), (1, 8)];
const FIRST_UNSIGNED: u8 = 1;
const FIRST_SIGNED: u8 = 128;

/// Puts a number as its place in its class, highest byte first, each byte turned over if `flipped`.
fn put_number(key: &mut Vec<u8>, classes: &[Class], mut first: u8, mut value: u64, flipped: u8) {
    for &(count, rest) in classes {
        let room = u128::from(count) << (8 * rest);
        if u128::from(value) < room {
            key.push((first + value.checked_shr(8 * rest).unwrap_or(0) as u8) ^ flipped);
            key.extend((0..rest).rev().map(|byte| (value >> (8 * byte)) as u8 ^ flipped));
            return;
        }
        value -= room as u64;
        first += count;
    }
}

fn put_unsigned(key: &mut Vec<u8>, value: u64) {
    put_number(key, &UNSIGNED, FIRST_UNSIGNED, value, 0);
}

fn put_signed(key: &mut Vec<u8>, value: i64) {
    if value < 0 {
        put_number(key, &SIGNED, FIRST_SIGNED, !value as u64, 0xFF);
    } else {
        put_number(key, &SIGNED, FIRST_SIGNED, value as u64, 0);
    }
}

/// The step to each point from the one before, and an end.
fn put_points(key: &mut Vec<u8>, points: &[Point]) {
    let mut last = Point { x: 0, y: 0 };
    for &point in points {
        put_signed(key, point.x - last.x);
        put_signed(key, point.y - last.y);
        last = point;
    }
    key.push(0);
}

fn put_text(key: &mut Vec<u8>, text: &[u8]) {
    key.extend_from_slice(text);
    key.push(0);
}

fn put_place(key: &mut Vec<u8>, x: i64, y: i64) {
    put_signed(key, x);
    put_signed(key, y);
}

fn put_all(key: &mut Vec<u8>, values: &[u64]) {
    values.iter().for_each(|&value| put_unsigned(key, value));
}

/// Puts the key of an element.
pub fn put(key: &mut Vec<u8>, element: &Element) {
    match element {
        Element::Placement { cell, x, y, turns, flip } => {
            key.push(1);
            put_text(key, cell);
            put_place(key, *x, *y);
            key.push(1 + 2 * turns + u8::from(*flip));
        }
        Element::Text { string, textlayer, texttype, x, y } => {
            key.push(2);
            put_text(key, string);
            put_all(key, &[*textlayer, *texttype]);
            put_place(key, *x, *y);
        }
        Element::Rectangle { layer, datatype, width, height, x, y } => {
            key.push(3);
            put_all(key, &[*layer, *datatype, *width, *height]);
            put_place(key, *x, *y);
        }
        Element::Polygon { layer, datatype, points } => {
            key.push(4);
            put_all(key, &[*layer, *datatype]);
            put_points(key, points);
        }
        Element::Path { layer, datatype, half_width, start, end, points } => {
            key.push(5);
            put_all(key, &[*layer, *datatype, *half_width]);
            put_place(key, *start, *end);
            put_points(key, points);
        }
        Element::Circle { layer, datatype, radius, x, y } => {
            key.push(6);
            put_all(key, &[*layer, *datatype, *radius]);
            put_place(key, *x, *y);
        }
    }
}

/// What is left of a key.
struct Left<'a>(&'a [u8]);

impl<'a> Left<'a> {
    fn byte(&mut self) -> u8 {
        let byte = self.0[0];
        self.0 = &self.0[1..];
        byte
    }

    fn number(&mut self, classes: &[Class], mut first: u8, byte: u8, flipped: u8) -> u64 {
        let mut passed = 0;
        for &(count, rest) in classes {
            if u16::from(byte) < u16::from(first) + u16::from(count) {
                let high = u64::from(byte - first);
                return (0..rest).fold(high, |value, _| value << 8 | u64::from(self.byte() ^ flipped)) + passed;
            }
            passed += u64::from(count) << (8 * rest);
            first += count;
        }
        unreachable!("no key begins so")
    }

    fn unsigned(&mut self) -> u64 {
        let byte = self.byte();
        self.number(&UNSIGNED, FIRST_UNSIGNED, byte, 0)
    }

    fn signed(&mut self) -> i64 {
        let byte = self.byte();
        if byte < FIRST_SIGNED {
            return !self.number(&SIGNED, FIRST_SIGNED, !byte, 0xFF) as i64;
        }
        self.number(&SIGNED, FIRST_SIGNED, byte, 0) as i64
    }

    fn text(&mut self) -> Vec<u8> {
        let length = self.0.iter().position(|&byte| byte == 0).unwrap_or(self.0.len());
        let text = self.0[..length].to_vec();
        self.0 = &self.0[length + 1..];
        text
    }

    fn points(&mut self) -> Vec<Point> {
        let (mut points, mut last) = (Vec::new(), Point { x: 0, y: 0 });
        while self.0[0] != 0 {
            last = Point { x: last.x + self.signed(), y: last.y + self.signed() };
            points.push(last);
        }
        points
    }
}

/// The element of a key.
pub fn read(key: &[u8]) -> Element {
    let left = &mut Left(key);
    match left.byte() {
        1 => {
            let (cell, x, y) = (left.text(), left.signed(), left.signed());
            let turned = left.byte() - 1;
            Element::Placement { cell, x, y, turns: turned / 2, flip: turned % 2 == 1 }
        }
        2 => Element::Text {
            string: left.text(),
            textlayer: left.unsigned(),
            texttype: left.unsigned(),
            x: left.signed(),
            y: left.signed(),
        },
        3 => Element::Rectangle {
            layer: left.unsigned(),
            datatype: left.unsigned(),
            width: left.unsigned(),
            height: left.unsigned(),
            x: left.signed(),
            y: left.signed(),
        },
        4 => Element::Polygon { layer: left.unsigned(), datatype: left.unsigned(), points: left.points() },
        5 => Element::Path {
            layer: left.unsigned(),
            datatype: left.unsigned(),
            half_width: left.unsigned(),
            start: left.signed(),
            end: left.signed(),
            points: left.points(),
        },
        _ => Element::Circle {
            layer: left.unsigned(),
            datatype: left.unsigned(),
            radius: left.unsigned(),
            x: left.signed(),
            y: left.signed(),
        },
    }
}
