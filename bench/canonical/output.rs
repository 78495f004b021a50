//! The canonical bytes of a layout.

use crate::element::{Element, Point};
use crate::{Layout, MAGIC, keys};
use std::io::{BufWriter, Result, Write};

pub struct Output<W: Write> {
    writer: BufWriter<W>,
}

impl<W: Write> Output<W> {
    pub fn new(writer: W) -> Self {
        Output { writer: BufWriter::new(writer) }
    }

    pub fn layout(mut self, layout: Layout) -> Result<()> {
        self.bytes(MAGIC)?;
        self.bytes(b"\x01\x031.0")?;
        self.unit(layout.unit)?;
        self.bytes(&[0; 13])?;
        let mut key = Vec::new();
        for (name, mut elements) in layout.cells {
            self.bytes(&[14])?;
            self.string(&name)?;
            while let Some(times) = elements.pop(&mut key) {
                let element = keys::read(&key);
                for _ in 0..times {
                    self.element(&element)?;
                }
            }
        }
        self.bytes(&[0x02, 0xFC, 0x01])?;
        self.bytes(&[0; 253])?;
        self.writer.flush()
    }

    #[inline]
    fn bytes(&mut self, bytes: &[u8]) -> Result<()> {
        self.writer.write_all(bytes)
    }

    #[inline]
    fn unsigned(&mut self, mut value: u64) -> Result<()> {
        let mut spelled = [0; 10];
        let mut length = 0;
        while value > 0x7F {
            spelled[length] = value as u8 | 0x80;
            value >>= 7;
            length += 1;
        }
        spelled[length] = value as u8;
        self.bytes(&spelled[..=length])
    }

    fn signed(&mut self, value: i64) -> Result<()> {
        self.unsigned(value.unsigned_abs() << 1 | u64::from(value < 0))
    }

    fn place(&mut self, x: i64, y: i64) -> Result<()> {
        self.signed(x)?;
        self.signed(y)
    }

    fn string(&mut self, string: &[u8]) -> Result<()> {
        self.unsigned(string.len() as u64)?;
        self.bytes(string)
    }

    fn unit(&mut self, unit: (u64, u64)) -> Result<()> {
        match unit {
            (num, 1) => {
                self.bytes(&[0])?;
                self.unsigned(num)
            }
            (1, den) => {
                self.bytes(&[2])?;
                self.unsigned(den)
            }
            (num, den) => {
                self.bytes(&[4])?;
                self.unsigned(num)?;
                self.unsigned(den)
            }
        }
    }

    fn points(&mut self, points: &[Point]) -> Result<()> {
        self.bytes(&[4])?;
        self.unsigned(points.len() as u64 - 1)?;
        for pair in points.windows(2) {
            let (dx, dy) = (pair[1].x - pair[0].x, pair[1].y - pair[0].y);
            self.unsigned(dx.unsigned_abs() << 2 | u64::from(dx < 0) << 1 | 1)?;
            self.signed(dy)?;
        }
        self.place(points[0].x, points[0].y)
    }

    fn numbers(&mut self, numbers: &[u64]) -> Result<()> {
        numbers.iter().try_for_each(|&number| self.unsigned(number))
    }

    fn element(&mut self, element: &Element) -> Result<()> {
        match *element {
            Element::Placement { ref cell, x, y, turns, flip } => {
                self.bytes(&[17, 0xB0 + 2 * turns + u8::from(flip)])?;
                self.string(cell)?;
                self.place(x, y)
            }
            Element::Text { ref string, textlayer, texttype, x, y } => {
                self.bytes(&[19, 0x5B])?;
                self.string(string)?;
                self.numbers(&[textlayer, texttype])?;
                self.place(x, y)
            }
            Element::Rectangle { layer, datatype, width, height, x, y } => {
                self.bytes(&[20, 0x7B])?;
                self.numbers(&[layer, datatype, width, height])?;
                self.place(x, y)
            }
            Element::Polygon { layer, datatype, ref points } => {
                self.bytes(&[21, 0x3B])?;
                self.numbers(&[layer, datatype])?;
                self.points(points)
            }
            Element::Path { layer, datatype, half_width, start, end, ref points } => {
                self.bytes(&[22, 0xFB])?;
                self.numbers(&[layer, datatype, half_width])?;
                self.bytes(&[15])?;
                self.place(start, end)?;
                self.points(points)
            }
            Element::Circle { layer, datatype, radius, x, y } => {
                self.bytes(&[27, 0x3B])?;
                self.numbers(&[layer, datatype, radius])?;
                self.place(x, y)
            }
        }
    }
}
